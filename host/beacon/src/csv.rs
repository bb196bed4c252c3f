//! A report for spreadsheets: comma-separated values by RFC 4180.

use milebeacon::{Cell, Figure, Report};

/// What the lines are, for people who load them.
pub const HELP: &str = "\
CSV, by RFC 4180, is one table, with the same lines whatever the recordings hold:
  figure,operation_number,operation,answer_number,answer,value
  entries,3,open,11,nonce_seen,1   a count; one for each operation and answer
  granted,,,,,50000000             micro-credits; likewise transferred,
                                   released, refunded and expired
  stopped,,,,,0                    0, unless the report stopped
For a pivot table take the lines whose figure is `entries`: operation down, answer
across, the sum of value. Operation 0 is none, 7 is both replies, and there is no 8.
Numbers are exact; a spreadsheet that keeps 15 digits rounds larger ones. If the
report stopped, the last value is the number of the figure that would pass 2^64 - 1,
granted to expired 1 to 5 or a count 6, and its line has the operation and answer of
the entry that it stopped before.";

/// Its lines: a count for each cell of an operation or of none, the five sums of credits, and whether it stopped.
pub fn csv(report: &Report) -> String {
    let mut text = "figure,operation_number,operation,answer_number,answer,value\r\n".to_owned();
    for cell in Cell::all() {
        text += &line("entries", Some(cell), report.count(cell));
    }
    for (figure, amount) in Figure::CREDITS.iter().zip(report.credits()) {
        text += &line(figure.name(), None, amount);
    }
    let (entry, number) = match report.named() {
        Some(named) => (Some(named.entry), named.figure.number()),
        None => (None, 0),
    };
    text + &line("stopped", entry, number)
}

/// No name has a comma, a quotation mark or a line end in it, so none is quoted.
fn line(figure: &str, cell: Option<Cell>, value: u64) -> String {
    let cell = cell.map_or_else(
        || ",,,".to_owned(),
        |cell| {
            format!(
                "{},{},{},{}",
                cell.row(),
                cell.operation_name(),
                cell.column(),
                cell.answer_name()
            )
        },
    );
    format!("{figure},{cell},{value}\r\n")
}
