//! The tables in Markdown.

use std::fmt::Write as _;

use milebeacon::Sizes;

use crate::measure::Costs;
use crate::replay::{Replayed, Spread};
use crate::sqlite::Stores;

fn words(sizes: Sizes) -> usize {
    8 + sizes.wallets * 6 + sizes.escrows * 8 + sizes.receipts * 14 + sizes.journal * 8
}

/// Times and ratios at the named sizes.
pub fn sizes(rows: &[(&str, Sizes, Costs, Stores)]) -> String {
    let mut text = String::from("| one call, in µs |");
    for (name, sizes, ..) in rows {
        let _ = write!(
            text,
            " {name} ({}/{}/{}/{}) |",
            sizes.wallets, sizes.escrows, sizes.receipts, sizes.journal
        );
    }
    text += "\n|---|";
    text += &"---:|".repeat(rows.len());
    let mut line = |name: &str, value: &dyn Fn(&Costs, &Stores) -> f64, digits: usize| {
        let _ = write!(text, "\n| {name} |");
        for (_, _, costs, stores) in rows {
            let _ = write!(text, " {:.digits$} |", value(costs, stores));
        }
    };
    line("one plain read of all words", &|c, _| c.read, 1);
    line("core: is it sound", &|c, _| c.core_sound, 1);
    line("core: submit", &|c, _| c.core_submit, 1);
    line("second program: is it sound", &|c, _| c.second_sound, 1);
    line("second program: submit", &|c, _| c.second_submit, 1);
    line("SQLite in memory", &|_, s| s.memory, 1);
    line("SQLite, WAL file, synchronous NORMAL", &|_, s| s.wal, 1);
    line("SQLite, WAL file, synchronous FULL", &|_, s| s.wal_full, 1);
    line(
        "**core sound / plain read**",
        &|c, _| c.core_sound / c.read,
        2,
    );
    line(
        "**core submit / plain read**",
        &|c, _| c.core_submit / c.read,
        2,
    );
    line(
        "**core submit / second program**",
        &|c, _| c.core_submit / c.second_submit,
        2,
    );
    line(
        "**core submit / SQLite in memory**",
        &|c, s| c.core_submit / s.memory,
        2,
    );
    line(
        "**core submit / SQLite WAL, NORMAL**",
        &|c, s| c.core_submit / s.wal,
        2,
    );
    line(
        "**core submit / SQLite WAL, FULL**",
        &|c, s| c.core_submit / s.wal_full,
        2,
    );
    text + "\n"
}

/// How much the core's time depends on the ids that parties choose.
pub fn ids(rows: &[(&str, Costs)]) -> String {
    let mut text = String::from(
        "\n| full tables; the wallets' ids | is it sound, µs | plain reads | submit, µs | \
         plain reads |\n|---|---:|---:|---:|---:|",
    );
    for (name, costs) in rows {
        let _ = write!(
            text,
            "\n| {name} | {:.1} | {:.2} | {:.1} | {:.2} |",
            costs.core_sound,
            costs.core_sound / costs.read,
            costs.core_submit,
            costs.core_submit / costs.read,
        );
    }
    text + "\n"
}

/// What a replayed entry costs beside a submission of the same record.
pub fn replays(sizes: Sizes, rows: &[Replayed]) -> String {
    let mut text = format!(
        "\n| replayed entry, in µs; full tables ({}/{}/{}/{}) | entries | submit | least to most | \
         replayed entry | least to most | **replayed entry / submit** | least to most |\n\
         |---|---:|---:|---:|---:|---:|---:|---:|",
        sizes.wallets, sizes.escrows, sizes.receipts, sizes.journal
    );
    for row in rows {
        let _ = write!(text, "\n| {} | {} |", row.name, row.entries);
        for (spread, digits) in [(row.submit, 1), (row.replay, 1), (row.ratio, 2)] {
            let Spread {
                median,
                least,
                most,
            } = spread;
            let _ = write!(
                text,
                " {median:.digits$} | {least:.digits$} to {most:.digits$} |"
            );
        }
    }
    text + "\n"
}

/// How the cost grows as tables double.
pub fn growth(rows: &[(Sizes, Costs)]) -> String {
    let mut text = String::from(
        "\n| wallets/escrows/receipts/journal | words | plain read, µs | core submit, µs | \
         over the half | second program, µs | over the half |\n|---|---:|---:|---:|---:|---:|---:|",
    );
    let mut before: Option<Costs> = None;
    for (sizes, costs) in rows {
        let over = |now: f64, of: fn(&Costs) -> f64| {
            before.map_or_else(|| "-".to_owned(), |half| format!("{:.2}", now / of(&half)))
        };
        let _ = write!(
            text,
            "\n| {}/{}/{}/{} | {} | {:.1} | {:.1} | {} | {:.1} | {} |",
            sizes.wallets,
            sizes.escrows,
            sizes.receipts,
            sizes.journal,
            words(*sizes),
            costs.read,
            costs.core_submit,
            over(costs.core_submit, |c| c.core_submit),
            costs.second_submit,
            over(costs.second_submit, |c| c.second_submit),
        );
        before = Some(*costs);
    }
    text + "\n"
}
