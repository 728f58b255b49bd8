//! The program legs, run as a user runs it.
mod bad_input;
mod printed;
mod run;
mod sheets;
