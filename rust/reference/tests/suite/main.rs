//! Tests of the reference against document 01, requests 1, 3, 4, 5, 6 and 7 and the manual pages.

mod addresses;
mod any_input;
mod bytemaps;
mod case_table;
mod encodings;
mod features;
mod lane_permutes;
mod listings;
mod manual;
mod opcode_maps;
mod reasons;
mod refusals;
mod runs;
mod sample;
mod support;
