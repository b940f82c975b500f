//! Compares the calls of the proved code, in the archive that the build linked, and the program
//! with the second program. Built and run by
//!
//!     DEPOT_LIB_DIR=FOLDER cargo run --offline --release --bin compare_depot -- [OPTION...]
//!
//! where the folder has the archive `libdepot_c.a`. The options are
//!
//!     --seed N         other inputs
//!     --runs N         as many runs that the seed makes, besides all that is always compared
//!     --replay FILE    nothing but the input in a file
//!     --program PATH   the program; without it, that of DEPOT_PROGRAM, else target/bin/depot
//!
//! The first input that differs is written to target/failing-case, which --replay takes. Then come
//! how often the inputs met each refusal and each situation of worker changes, checkpoints and
//! images, each kind of moment at which a table was judged in the middle of a run, each sort of
//! dispatch, each sort of command that opening refuses in a list that was handed back, and each sort of
//! list whose rounds were asked for, accepted or refused; in a line of its own, how near the turns of a
//! dispatch came to the bound; and in the last two lines how many inputs of each sort there were, and
//! how many in all. It ends with 0 where nothing differs, 1 where something does or is never met, and 2
//! where it cannot compare.

use std::process::ExitCode;

#[cfg(depot_linked)]
mod archive;
#[cfg(depot_linked)]
mod compare;

#[cfg(depot_linked)]
fn main() -> ExitCode {
    compare::main()
}

#[cfg(not(depot_linked))]
fn main() -> ExitCode {
    eprintln!("compare_depot: built without DEPOT_LIB_DIR, so there is nothing to compare");
    ExitCode::from(2)
}
