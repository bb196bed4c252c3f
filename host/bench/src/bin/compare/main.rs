//! `compare [--search] [--quick] BEFORE.so AFTER.so AGAIN.so ..`: prints what a call costs with one
//! archive of the core beside another, as a table in Markdown; with `--search`, what the search for
//! a used signer and nonce costs. `tools/host-compare` links the archives and calls this.
//!
//! Each three shared objects are one placement: the archive before a change, the one after it, and
//! the one before it once more, which shows how much of a ratio is noise. More threes are the same
//! archives with their code at other places.
//!
//! It fails if an answer or a word of the tables after a call differs between any two of them.

#![deny(unsafe_code)]

mod calls;
mod loaded;
mod ratio;
mod report;
mod search;
mod turns;

use std::env;
use std::process::ExitCode;

use bench::fill::KINDS;
use loaded::Core;
use turns::Placement;

/// How many turns there are for each call.
const FULL: usize = 1_500;
const QUICK: usize = 100;
/// How many times fewer there are for the search: a turn makes many calls there.
const FEWER: usize = 4;

fn main() -> ExitCode {
    match work() {
        Ok(()) => ExitCode::SUCCESS,
        Err(line) => {
            eprintln!("compare: {line}");
            ExitCode::FAILURE
        }
    }
}

fn work() -> Result<(), String> {
    let (mut turns, mut search, mut paths) = (FULL, false, Vec::new());
    for word in env::args().skip(1) {
        match word.as_str() {
            "--quick" => turns = QUICK,
            "--search" => search = true,
            _ => paths.push(word),
        }
    }
    let placements = loaded_placements(&paths)?;
    if search {
        searches(&placements, turns / FEWER)
    } else {
        calls(&placements, turns)
    }
}

/// Calls on full tables, for each kind of ids.
fn calls(placements: &[Placement], turns: usize) -> Result<(), String> {
    print!("{}", report::head("full tables; the wallets' ids"));
    for (kind, ids) in KINDS {
        for call in calls::on_full_tables(ids) {
            let times = turns::taken(&call, placements, turns)
                .map_err(|line| format!("ids {kind}, {}: {line}", call.name))?;
            print!("{}", report::row(kind, call.name, &times, placements.len()));
        }
    }
    Ok(())
}

/// The search on a full journal, alone and in a whole submission.
fn searches(placements: &[Placement], turns: usize) -> Result<(), String> {
    if !placements.iter().flatten().all(Core::searches) {
        return Err("the search is no function of its own: take tools/native-archive".into());
    }
    let kinds = "full journal; what is submitted";
    let mut parts = report::part_head(kinds);
    print!("{}", report::head(kinds));
    for asked in search::on_full_journals() {
        let search = asked.search(placements, turns);
        let submit = asked.submit(placements, turns);
        for (call, times) in [("search alone", &search), ("submit", &submit)] {
            print!("{}", report::row(asked.name, call, times, placements.len()));
        }
        parts += &report::part(asked.name, &search, &submit);
    }
    print!("\n{parts}");
    Ok(())
}

/// Loads each three shared objects as a placement.
fn loaded_placements(paths: &[String]) -> Result<Vec<Placement>, String> {
    let threes = paths.chunks_exact(3);
    if paths.is_empty() || !threes.remainder().is_empty() {
        return Err("it takes shared objects by threes: before, after, and before again".into());
    }
    threes
        .map(|three| {
            Ok([
                Core::load(&three[0])?,
                Core::load(&three[1])?,
                Core::load(&three[2])?,
            ])
        })
        .collect()
}
