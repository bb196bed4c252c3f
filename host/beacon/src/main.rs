//! `beacon`: writes, explains and settles submission records, replays recordings of them, counts what
//! they hold and converts those of the old form.
//!
//! Bad input gets one line on standard error and a status that is not 0: 2 for a command that makes
//! no sense, 1 for everything else. A replay that does not agree is a finding, with a status of its
//! own, and so are a report that stops and a recording that is not in the form that it is to be
//! converted from.

#![forbid(unsafe_code)]

mod command;
mod convert;
mod counts;
mod csv;
mod explain;
mod files;
mod kind;
mod log;
mod operations;
mod problem;
mod record;
mod replay;
mod report;
mod run;
mod show;
mod sizes;
mod waiting;
mod whole;

use std::env;
use std::io::{self, Write};
use std::process::ExitCode;

use problem::Problem;

fn main() -> ExitCode {
    match work() {
        Ok(code) => code,
        Err(problem) => {
            eprintln!("beacon: {problem}");
            problem.code()
        }
    }
}

fn work() -> Result<ExitCode, Problem> {
    let mut output = Vec::new();
    let result = command::dispatch(env::args_os(), &mut output);
    // What was found out before a problem is shown all the same.
    let mut stdout = io::stdout().lock();
    let written = stdout.write_all(&output).and_then(|()| stdout.flush());
    match (result, written) {
        // A reader such as `head` that has seen enough is no problem.
        (Ok(code), Err(error)) if error.kind() == io::ErrorKind::BrokenPipe => Ok(code),
        (Ok(_), Err(error)) => Err(Problem::io("cannot write to standard output", &error)),
        (result, _) => result,
    }
}
