//! A report for people: its counts as lines or as a grid, and its credits.

use std::slice;

use milebeacon::{Answer, Cell, Figure, Operation, Refusal, Report, ANSWERS};

use crate::show::{credits, grouped, table_of_words};

/// What is told beside the figures.
pub struct Told {
    /// How many recordings were counted.
    pub recordings: usize,
    /// What the report lacks, if it stopped.
    pub lacks: Option<String>,
}

/// The counts that are not 0, a line each.
pub fn lines(report: &Report, told: &Told) -> String {
    let rows: Vec<Vec<String>> = report
        .counts()
        .map(|(cell, count)| {
            let answer = format!("{:>2} {}", cell.column(), cell.answer_name());
            vec![cell.operation_name().to_owned(), answer, grouped(count)]
        })
        .collect();
    let names = ["operation", "answer", "entries"];
    framed(report, told, &table_of_words("counts", 2, &names, &rows))
}

/// Every count: a line for each answer and a column for each operation, and the sums of both.
pub fn grid(report: &Report, told: &Told) -> String {
    let operations = operations();
    let refusals = refusals();
    let mut rows: Vec<Vec<String>> = refusals
        .iter()
        .map(|refusal| {
            let answer = refusal.map_or(Answer::Settled(0), Answer::Refused);
            let name = format!("{:>2} {}", answer.number(), answer.name());
            row(report, name, &operations, slice::from_ref(refusal))
        })
        .collect();
    rows.push(row(report, "entries".to_owned(), &operations, &refusals));

    let names = operations
        .iter()
        .map(|operation| operation.map_or("no operation", Operation::name));
    let names = ["answer"].into_iter().chain(names).chain(["entries"]);
    let names: Vec<&str> = names.collect();
    framed(report, told, &table_of_words("counts", 1, &names, &rows))
}

/// No operation, and each.
fn operations() -> Vec<Option<Operation>> {
    let each = Operation::ALL.iter().copied().map(Some);
    [None].into_iter().chain(each).collect()
}

/// No refusal, and each by its number, as everywhere in a report: they are listed in the order of
/// the checks, in which nobody would look for one.
fn refusals() -> Vec<Option<Refusal>> {
    (0..ANSWERS as u64).map(Refusal::from_number).collect()
}

/// A row of the grid: its name, for each operation how many of these answers there are, and the sum.
fn row(
    report: &Report,
    name: String,
    operations: &[Option<Operation>],
    refusals: &[Option<Refusal>],
) -> Vec<String> {
    let of = |operation| -> u128 {
        let cells = refusals.iter().map(|&refusal| Cell { operation, refusal });
        cells.map(|cell| u128::from(report.count(cell))).sum()
    };
    let counts: Vec<u128> = operations.iter().map(|&operation| of(operation)).collect();
    let shown = counts.iter().copied().chain([counts.iter().sum()]);
    let shown = shown.map(|count| match count {
        0 => "-".to_owned(),
        count => grouped(count),
    });
    [name].into_iter().chain(shown).collect()
}

/// The counts, with how many there are in all above and the credits below them.
fn framed(report: &Report, told: &Told, counts: &str) -> String {
    let entries = match report.entries() {
        1 => "1 entry".to_owned(),
        many => format!("{} entries", grouped(many)),
    };
    let recordings = match told.recordings {
        1 => "1 recording".to_owned(),
        many => format!("{many} recordings"),
    };
    let rows: Vec<Vec<String>> = Figure::CREDITS
        .iter()
        .zip(report.credits())
        .map(|(figure, amount)| vec![figure.name().to_owned(), credits(amount)])
        .collect();
    let sums = table_of_words("credits", 1, &["figure", "micro-credits"], &rows);
    let lacks = told
        .lacks
        .as_ref()
        .map_or_else(String::new, |lacks| format!("\n{lacks}\n"));
    format!("{entries} in {recordings}\n{counts}{sums}{lacks}")
}
