//! The second program. It says again, from the documents alone and in plain Rust, what the proved
//! code must do, and is run beside it on the same inputs.
//!
//! - The second writing: `identifier`, `command` and `serial` are what a command means, `store`,
//!   `image` and `run` the records and turns, `dispatch` the dispatcher's choice of turns, `rounds`
//!   the rounds that a list needs, `bytes` and `calls` the public calls on byte lists, `program` the
//!   program, and `refusal` the numbers of refusal and how a call answers them.
//! - The comparison: `depot` names the calls that are compared, `script` is the steps of one input,
//!   `host` a caller that takes them, `play` two callers side by side, and `generate` makes the
//!   inputs from a seed (`random`); `hex` shows them, and `met` counts what they meet of worker
//!   changes, checkpoints, images, tables in the middle of runs, dispatches and rounds. The program
//!   `compare_depot` runs it.
//! - The tools: `text` turns the program's input into text and back for `depot_text` and shows a list
//!   with its rounds, and `draw` makes a picture of a run for `depot_draw`.

#![forbid(unsafe_code)]

pub mod bytes;
pub mod calls;
pub mod command;
pub mod depot;
pub mod dispatch;
pub mod draw;
pub mod generate;
pub mod hex;
pub mod host;
pub mod identifier;
pub mod image;
pub mod met;
pub mod play;
pub mod program;
pub mod random;
pub mod refusal;
pub mod rounds;
pub mod run;
pub mod script;
pub mod serial;
pub mod store;
pub mod text;
