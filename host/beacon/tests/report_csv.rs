//! `beacon report` for a spreadsheet, and where it stops.

mod tool;

use milebeacon::{Envelope, Submission};

use tool::{busy, fails, recording, succeeds, text};

/// The value of a CSV's line, by what stands before it.
fn value(csv: &str, line: &str) -> String {
    let start = format!("\r\n{line},");
    let place = csv.find(&start).expect(line) + start.len();
    let value = csv[place..].split("\r\n").next().expect("a line's end");
    value.to_owned()
}

#[test]
fn csv_is_one_table_with_a_line_for_every_cell() {
    let path = busy("busy.csv.rec");
    let shown = succeeds(&["report", "--csv", &path]);
    let shown = text(&shown);
    assert_eq!(shown.matches('\n').count(), shown.matches("\r\n").count());
    let lines: Vec<Vec<&str>> = shown
        .strip_suffix("\r\n")
        .expect("an end to the last line")
        .split("\r\n")
        .map(|line| line.split(',').collect())
        .collect();
    let names = "figure operation_number operation answer_number answer value";
    assert_eq!(lines[0].join(" "), names);
    assert_eq!(lines.len(), 1 + 12 * 44 + 5 + 1);
    assert!(lines.iter().all(|fields| fields.len() == 6));
    // no field needs quotation marks
    assert!(!shown.contains('"'));

    let mut entries = 0;
    for (place, fields) in lines[1..=12 * 44].iter().enumerate() {
        let (row, column) = (place / 44, place % 44);
        // there is no operation 8
        let row = if row < 8 { row } else { row + 1 };
        assert_eq!(fields[0], "entries");
        assert_eq!(
            (fields[1], fields[3]),
            (&*row.to_string(), &*column.to_string())
        );
        entries += fields[5].parse::<u64>().expect("a number");
    }
    assert_eq!(entries, 11);
    for (line, expected) in [
        ("entries,0,no operation,3,malformed_record", "0"),
        ("entries,1,grant,0,settled", "1"),
        ("entries,3,open,0,settled", "3"),
        ("entries,3,open,11,nonce_seen", "1"),
        ("entries,7,reply,35,dispute_reason_required", "0"),
        ("entries,9,sweep,0,settled", "1"),
        ("entries,11,caps,40,journal_table_full", "0"),
        ("entries,12,close,0,settled", "0"),
        ("entries,12,close,43,wallet_closed", "0"),
        ("granted,,,,", "50000000"),
        ("transferred,,,,", "700"),
        ("released,,,,", "20000000"),
        ("refunded,,,,", "1000"),
        ("expired,,,,", "200"),
        ("stopped,,,,", "0"),
    ] {
        assert_eq!(value(shown, line), expected, "{line}");
    }
}

/// A recording with the most credits that there can be: 1,000 grants of 10^15.
fn rich(name: &str) -> String {
    let grant = |nonce| {
        let admin = Envelope::new(1_000, 1, nonce).by_admin();
        Submission::grant(admin, 7, 1_000_000_000_000_000)
    };
    recording(name, &(1..=1_000).map(grant).collect::<Vec<_>>())
}

#[test]
fn a_report_that_stops_is_told_and_printed_as_far_as_it_goes() {
    let path = rich("rich.rec");
    let words = |options: &'static str, times: usize| -> Vec<&str> {
        let words = options.split(' ').chain(["--journal", "1000"]);
        words.chain(vec![path.as_str(); times]).collect()
    };
    // granted are 18 times 10^18, and 446 times 10^15
    let said = format!(
        "stopped before entry 447 of {path}: the credits granted would pass 2^64 - 1 (grant: 0 \
         settled)\n"
    );
    let lacks = format!("\nincomplete: entry 447 of {path} and what follows it are not counted");
    for (times, more) in [
        (19, "\n"),
        (20, ", nor is 1 more recording\n"),
        (21, ", nor are 2 more recordings\n"),
    ] {
        let shown = fails(&words("report", times), 5, &said);
        let shown = text(&shown);
        let entries = "18,446 entries in 19 recordings\n";
        assert!(shown.starts_with(entries), "{shown}");
        let granted = "\n  granted      18,446,000,000,000,000,000\n";
        assert!(shown.contains(granted), "{shown}");
        assert!(shown.ends_with(&format!("{lacks}{more}")), "{shown}");
    }
    let shown = fails(&words("report --csv", 19), 5, &said);
    let shown = text(&shown);
    assert_eq!(value(shown, "entries,1,grant,0,settled"), "18446");
    assert_eq!(value(shown, "granted,,,,"), "18446000000000000000");
    assert_eq!(value(shown, "stopped,1,grant,0,settled"), "1");

    // up to there it does not
    let shown = succeeds(&words("report --csv", 18));
    assert_eq!(value(text(&shown), "granted,,,,"), "18000000000000000000");
    assert_eq!(value(text(&shown), "stopped,,,,"), "0");
}

#[test]
fn help_tells_the_exit_statuses_and_the_lines_of_a_csv() {
    let shown = succeeds(&["report", "--help"]);
    for line in [
        "  figure,operation_number,operation,answer_number,answer,value\n",
        "  0  every whole entry is counted\n",
        "  1  a recording cannot be read, and nothing is printed; or the report cannot be written\n",
        "  5  the report stopped, and is printed as far as it goes\n",
    ] {
        assert!(text(&shown).contains(line), "{}", text(&shown));
    }
}
