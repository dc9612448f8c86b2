//! `zhitomrak`: the station for people. It keeps a watch as a folder, answers, draws, and loses nothing that came.
//!
//! Every figure, sentence and refusal of the station is the proved library's, through the safe crate. What is here reads, writes and
//! shows: `keep` and `frames` take in what comes, `watch` and `journal` keep it, `sheet` reads station.toml, `answers`, `status` and `why` tell, `log` and `files` keep
//! what was logged, `plot` and `picture` draw, `shell` is the prompt.

#![forbid(unsafe_code)]

mod answers;
mod commands;
mod ended;
mod fault;
mod files;
mod frames;
mod hand;
mod journal;
mod keep;
mod log;
mod minutes;
mod picture;
mod plot;
mod progress;
mod run;
mod sheet;
mod shell;
mod status;
mod struck;
mod watch;
mod why;

use std::io::{self, BufWriter, Write};
use std::process::ExitCode;

use commands::{all, Place};
use fault::{say, Fault, NOT_DONE, NOT_UNDERSTOOD, REFUSED};
use run::{run, Desk, Done};

/// The commands that change something: none of them ends without a word.
const CHANGES: [&str; 8] = [
    "init", "keep", "reading", "dial", "log", "drop", "save", "load",
];

fn main() -> ExitCode {
    let told = match all(Place::CommandLine).try_get_matches() {
        Ok(told) => told,
        Err(error) => return not_asked(&error),
    };
    let Some((name, told)) = told.subcommand() else {
        return ExitCode::from(NOT_UNDERSTOOD);
    };
    let mut out = BufWriter::new(io::stdout());
    let done = run(name, told, &mut Desk::new(None), &mut out);
    let flushed = out.flush().map_err(keep::cannot_tell);
    match done.and_then(|done| flushed.map(|()| done)) {
        Ok(Done::Refused) => ExitCode::from(REFUSED),
        Ok(_) => ExitCode::SUCCESS,
        Err(Fault(words, status)) => {
            // who only asked, and has read enough, need not be told
            if words.is_empty() && CHANGES.contains(&name) {
                say!("nobody reads what is told any more, and it ends here; what was done is kept");
            }
            for line in words.lines() {
                say!("{line}");
            }
            ExitCode::from(status)
        }
    }
}

/// Help, the version, or what was not understood.
fn not_asked(error: &clap::Error) -> ExitCode {
    let told = error.print().and_then(|()| io::stdout().flush());
    match told {
        Err(_) => ExitCode::from(NOT_DONE),
        Ok(()) if error.use_stderr() => ExitCode::from(NOT_UNDERSTOOD),
        Ok(()) => ExitCode::SUCCESS,
    }
}
