//! The sizes of the tables, as options.

use clap::{Arg, ArgMatches, Command};
use milebeacon::Sizes;

use crate::command::parse_number;

/// An option for each table: its name, what it holds, the most rows, and the program's.
const OPTIONS: [(&str, &str, usize, &str); 4] = [
    ("wallets", "Rows for wallets", Sizes::LARGEST.wallets, "64"),
    ("escrows", "Rows for escrows", Sizes::LARGEST.escrows, "128"),
    (
        "receipts",
        "Rows for receipts",
        Sizes::LARGEST.receipts,
        "128",
    ),
    ("journal", "Rows of journal", Sizes::LARGEST.journal, "512"),
];

/// The command with these options.
pub fn options(command: Command) -> Command {
    OPTIONS
        .into_iter()
        .fold(command, |command, (name, help, most, usual)| {
            command.arg(
                Arg::new(name)
                    .long(name)
                    .value_name("ROWS")
                    .value_parser(move |text: &str| rows(text, most))
                    .default_value(usual)
                    .help(format!("{help}, 1 to {most}")),
            )
        })
}

/// The sizes that were asked for.
pub fn asked_for(matches: &ArgMatches) -> Sizes {
    let rows = |name, usual| matches.get_one::<usize>(name).copied().unwrap_or(usual);
    let usual = Sizes::PROGRAM;
    Sizes {
        wallets: rows("wallets", usual.wallets),
        escrows: rows("escrows", usual.escrows),
        receipts: rows("receipts", usual.receipts),
        journal: rows("journal", usual.journal),
    }
}

fn rows(text: &str, most: usize) -> Result<usize, String> {
    let rows = parse_number(text)
        .ok()
        .and_then(|rows| rows.try_into().ok());
    rows.filter(|rows| (1..=most).contains(rows))
        .ok_or_else(|| format!("not a number of rows from 1 to {most}"))
}
