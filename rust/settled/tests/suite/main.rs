//! Today's library held to the base's answers, and tests that this can fail.

mod frozen;
mod landed;
mod reading;
mod request_1;
mod request_3;
mod request_5;
mod request_6;
mod request_7;
mod rules;
mod settled;
mod tools;
