//! The command `durpaxeta`: shows, writes, cuts, merges, converts, generates, checks, compares and explains stored
//! tables, gives every small one, edits working ones, gives guests what they may see, and moves tables off the older form.

#![deny(unsafe_code)]

mod arguments;
mod arrangements;
mod commands;
mod crc;
mod describe;
mod explain;
mod failure;
mod files;
mod guests;
mod help;
mod json;
mod listing;
mod literal;
mod locate;
mod memory;
mod migrate;
mod output;
mod pair;
#[cfg(test)]
mod random;
mod stored;
mod system;
mod tables;
mod watch;
mod words;
mod worksheet;

use std::process::ExitCode;

fn main() -> ExitCode {
    system::tell_of_long_files();
    match commands::run(std::env::args_os().skip(1).collect()) {
        Ok(status) => ExitCode::from(status),
        Err(failure) => {
            output::tell_of(&failure);
            ExitCode::from(failure.status())
        }
    }
}
