//! The table in Markdown.

use crate::ratio::{least, ratio, Ratio};
use crate::turns::{Times, AFTER, AGAIN, BEFORE};

/// The names of the columns.
pub fn head(kinds: &str) -> String {
    format!(
        "| {kinds} | one call | before, µs | after, µs | after / before | \
         median | by placement | noise | median | by placement |\n\
         |---|---|---:|---:|---:|---:|---:|---:|---:|---:|\n"
    )
}

/// The times and ratios of one call.
pub fn row(kind: &str, call: &str, times: &Times, placements: usize) -> String {
    format!(
        "| {kind} | {call} | {:.3} | {:.3} | {} | {} |\n",
        least(&times[BEFORE]),
        least(&times[AFTER]),
        columns(&ratio(&times[AFTER], &times[BEFORE], placements), "**"),
        columns(&ratio(&times[AGAIN], &times[BEFORE], placements), ""),
    )
}

/// The names of the columns of the search as a part of a submission.
pub fn part_head(kinds: &str) -> String {
    format!("| {kinds} | search / submit before | after |\n|---|---:|---:|\n")
}

/// What part of a submission the search is.
pub fn part(kind: &str, search: &Times, submit: &Times) -> String {
    let part = |which: usize| 100.0 * least(&search[which]) / least(&submit[which]);
    format!(
        "| {kind} | {:.2} % | {:.2} % |\n",
        part(BEFORE),
        part(AFTER)
    )
}

/// The three columns of a ratio, the first one marked.
fn columns(ratio: &Ratio, mark: &str) -> String {
    format!(
        "{mark}{:.3}{mark} | {:.3} | {:.3} to {:.3}",
        ratio.of_least, ratio.median, ratio.lowest, ratio.highest
    )
}
