//! `bench [--quick] [--replay] [--plot FILE]`: prints what a call of the core costs, as a table in
//! Markdown, and draws how the cost grows; with `--replay` only what a replayed entry costs.
//!
//! Everything in one table is measured in one run, in turns, and the least of many times is taken:
//! the ratios say more than the times. A replayed entry's time is a difference of two, so there the
//! median is taken, and the least and the most are told.

#![forbid(unsafe_code)]

mod measure;
mod plot;
mod replay;
mod report;
mod sqlite;

use std::env;
use std::process::ExitCode;

use milebeacon::Sizes;

use bench::fill::{Ids, KINDS};
use measure::{at_size, Costs, Effort};

fn main() -> ExitCode {
    match work() {
        Ok(()) => ExitCode::SUCCESS,
        Err(line) => {
            eprintln!("bench: {line}");
            ExitCode::FAILURE
        }
    }
}

fn work() -> Result<(), String> {
    let (mut effort, mut plot_path, mut replay_only) = (Effort::FULL, None, false);
    let mut words = env::args().skip(1);
    while let Some(word) = words.next() {
        match word.as_str() {
            "--quick" => effort = Effort::QUICK,
            "--replay" => replay_only = true,
            "--plot" => plot_path = Some(words.next().ok_or("--plot needs a file")?),
            _ => return Err(format!("{word:?} is none of --quick, --replay and --plot")),
        }
    }
    if !replay_only {
        calls(effort, plot_path)?;
    }
    let replayed = replay::at_size(Sizes::LARGEST, effort);
    print!("{}", report::replays(Sizes::LARGEST, &replayed));
    Ok(())
}

/// What one call costs, and how that grows.
fn calls(effort: Effort, plot_path: Option<String>) -> Result<(), String> {
    let named = [
        ("program", Sizes::PROGRAM),
        ("middle", scaled(4)),
        ("full", Sizes::LARGEST),
    ];
    let mut rows = Vec::new();
    for (name, sizes) in named {
        let costs = at_size(sizes, Ids::InARow, effort);
        let stores = sqlite::costs(sizes, effort).map_err(|error| error.to_string())?;
        rows.push((name, sizes, costs, stores));
    }
    print!("{}", report::sizes(&rows));

    let by_ids = KINDS.map(|(name, ids)| (name, at_size(Sizes::LARGEST, ids, effort)));
    print!("{}", report::ids(&by_ids));

    let growth: Vec<(Sizes, Costs)> = [64, 32, 16, 8, 4, 2, 1]
        .into_iter()
        .map(|part| (scaled(part), at_size(scaled(part), Ids::InARow, effort)))
        .collect();
    print!("{}", report::growth(&growth));
    if let Some(path) = plot_path {
        let drawing = plot::growth(&growth);
        std::fs::write(&path, drawing).map_err(|error| format!("cannot write {path}: {error}"))?;
    }
    Ok(())
}

/// A part of the largest tables.
fn scaled(part: usize) -> Sizes {
    let Sizes {
        wallets,
        escrows,
        receipts,
        journal,
    } = Sizes::LARGEST;
    Sizes {
        wallets: wallets / part,
        escrows: escrows / part,
        receipts: receipts / part,
        journal: journal / part,
    }
}
