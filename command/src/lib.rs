//! The parts of the command `kelumavor`. Its answers come from the proved library behind the crate of the same name; what is here
//! reads and writes, and finds the words around the answers.
pub mod args;
pub mod ask;
pub mod assemble;
pub mod command;
pub mod dot;
pub mod dump;
pub mod escape;
pub mod explain;
pub mod failure;
pub mod faults;
pub mod imports;
pub mod input;
pub mod joined;
pub mod json;
pub mod progress;
pub mod reach;
pub mod record;
pub mod resolve;
pub mod tree;
pub mod view;
