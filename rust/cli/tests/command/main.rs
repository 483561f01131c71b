//! Drives the built command as a user does: arguments, standard input, files, exit status, output.

mod address;
mod audit;
mod compare;
mod decode;
mod features;
mod files;
mod list;
mod map;
mod picture;
mod run;
mod tools;
mod usage;
