//! Numbers, moments and tables for people.

const DAY_MS: u64 = 86_400_000;

/// An amount of micro-credits, in groups of three digits.
pub fn credits(amount: u64) -> String {
    grouped(amount)
}

/// A number, in groups of three digits.
pub fn grouped(number: impl Into<u128>) -> String {
    let digits = number.into().to_string();
    let mut grouped = String::new();
    for (place, digit) in digits.chars().enumerate() {
        if place > 0 && (digits.len() - place) % 3 == 0 {
            grouped.push(',');
        }
        grouped.push(digit);
    }
    grouped
}

/// A number of entries.
pub fn entries(number: u64) -> String {
    match number {
        1 => "1 entry".to_owned(),
        _ => format!("{number} entries"),
    }
}

/// A moment in milliseconds since 1970, and its date beside it.
pub fn moment(ms: u64) -> String {
    let (days, of_day) = (ms / DAY_MS, ms % DAY_MS);
    // days since the 1st of March 0 are 400 years at a time, each year ending with its leap day
    let (era, day) = ((days + 719_468) / 146_097, (days + 719_468) % 146_097);
    let year = (day - day / 1_460 + day / 36_524 - day / 146_096) / 365;
    let day = day - (365 * year + year / 4 - year / 100);
    let month = (5 * day + 2) / 153;
    let day = day - (153 * month + 2) / 5 + 1;
    let month = if month < 10 { month + 3 } else { month - 9 };
    let year = 400 * era + year + u64::from(month <= 2);
    let (seconds, ms_left) = (of_day / 1_000, of_day % 1_000);
    let (hour, minute, second) = (seconds / 3_600, seconds / 60 % 60, seconds % 60);
    format!(
        "{ms} [{year:04}-{month:02}-{day:02} {hour:02}:{minute:02}:{second:02}.{ms_left:03} UTC]"
    )
}

/// A table: a title, the columns' names, and rows. Columns are as wide as they need to be, and
/// aligned to the right.
pub fn table(title: &str, names: &[&str], rows: &[Vec<String>]) -> String {
    table_of_words(title, 0, names, rows)
}

/// The same, with the first few columns aligned to the left, as words are.
pub fn table_of_words(title: &str, words: usize, names: &[&str], rows: &[Vec<String>]) -> String {
    if rows.is_empty() {
        return format!("\n{title}: none\n");
    }
    let width = |column: usize| {
        let cells = rows
            .iter()
            .filter_map(|row| row.get(column))
            .map(String::len);
        cells.chain([names[column].len()]).max().unwrap_or(0)
    };
    let widths: Vec<usize> = (0..names.len()).map(width).collect();
    let line = |cells: &mut dyn Iterator<Item = &str>| {
        let padded: Vec<String> = (0..)
            .zip(cells.zip(&widths))
            .map(|(place, (cell, width))| match place < words {
                true => format!("{cell:<width$}"),
                false => format!("{cell:>width$}"),
            })
            .collect();
        format!("  {}\n", padded.join("  "))
    };
    let mut text = format!("\n{title}\n");
    text += &line(&mut names.iter().copied());
    for row in rows {
        text += &line(&mut row.iter().map(String::as_str));
    }
    text
}

#[cfg(test)]
mod tests {
    use super::{credits, grouped, moment, table, table_of_words};

    #[test]
    fn digits_are_grouped() {
        let shown = [0, 7, 999, 1_000, 20_000_000, u64::MAX].map(credits);
        let expected = [
            "0",
            "7",
            "999",
            "1,000",
            "20,000,000",
            "18,446,744,073,709,551,615",
        ];
        assert_eq!(shown, expected);
        assert_eq!(grouped(1_u128 << 64), "18,446,744,073,709,551,616");
    }

    #[test]
    fn moments_have_their_dates() {
        let dates = [
            (0, "1970-01-01 00:00:00.000"),
            (951_782_399_999, "2000-02-28 23:59:59.999"),
            (951_782_400_000, "2000-02-29 00:00:00.000"),
            (951_868_800_000, "2000-03-01 00:00:00.000"),
            (1_700_000_000_123, "2023-11-14 22:13:20.123"),
            (1_735_689_599_999, "2024-12-31 23:59:59.999"),
            (4_107_542_400_000, "2100-03-01 00:00:00.000"),
            ((1 << 48) - 1, "10889-08-02 05:31:50.655"),
        ];
        for (ms, date) in dates {
            assert_eq!(moment(ms), format!("{ms} [{date} UTC]"));
        }
    }

    #[test]
    fn columns_are_as_wide_as_they_need_to_be() {
        let rows = [
            vec!["1".to_owned(), "1,000".to_owned()],
            vec!["12".to_owned(), "5".to_owned()],
        ];
        let shown = table("things", &["no.", "size"], &rows);
        assert_eq!(
            shown,
            "\nthings\n  no.   size\n    1  1,000\n   12      5\n"
        );
        let shown = table_of_words("things", 1, &["no.", "size"], &rows);
        assert_eq!(
            shown,
            "\nthings\n  no.   size\n  1    1,000\n  12       5\n"
        );
        assert_eq!(table("things", &["no."], &[]), "\nthings: none\n");
    }
}
