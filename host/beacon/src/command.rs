//! The command line.

use std::ffi::OsString;
use std::process::ExitCode;

use clap::{Arg, ArgAction, ArgMatches, Command};

use crate::problem::Problem;
use crate::{convert, explain, operations, record, replay, report, run, sizes};

/// Does what the words ask for. What is to be printed goes to `output`.
pub fn dispatch(
    words: impl Iterator<Item = OsString>,
    output: &mut Vec<u8>,
) -> Result<ExitCode, Problem> {
    let matches = match command().try_get_matches_from(words) {
        Ok(matches) => matches,
        Err(error) if !error.use_stderr() => {
            // --help and --version
            output.extend_from_slice(error.to_string().as_bytes());
            return Ok(ExitCode::SUCCESS);
        }
        Err(error) => return Err(Problem::Usage(one_line(&error.to_string()))),
    };
    match matches.subcommand() {
        Some(("record", matches)) => record::write(matches, output),
        Some(("explain", matches)) => explain::explain(file(matches), output),
        Some(("run", matches)) => {
            let recording = matches.get_one::<String>("record").map(String::as_str);
            run::run(file(matches), sizes::asked_for(matches), recording, output)
        }
        Some(("replay", matches)) => {
            replay::replay(file(matches), sizes::asked_for(matches), output)
        }
        Some(("report", matches)) => report::report(matches, output),
        Some(("convert", matches)) => convert::convert(matches, output),
        _ => Err(Problem::Usage(
            "say record, explain, run, replay, report or convert; --help tells more".to_owned(),
        )),
    }
}

fn file(matches: &ArgMatches) -> &str {
    matches
        .get_one::<String>("FILE")
        .map_or("-", String::as_str)
}

fn command() -> Command {
    let file = || {
        Arg::new("FILE")
            .required(true)
            .help("A file of records; - is standard input")
    };
    Command::new("beacon")
        .version("0.1.0")
        .about(
            "Writes, explains and settles submission records; replays, counts and converts \
             recordings",
        )
        .disable_help_subcommand(true)
        .subcommand(operations::command())
        .subcommand(
            Command::new("explain")
                .about("Prints records in words, and the answers to them")
                .arg(file()),
        )
        .subcommand(sizes::options(
            Command::new("run")
                .about("Settles a file of records on a fresh ledger")
                .long_about(
                    "Settles a file of records on a fresh ledger. Prints the answer to each \
                     record, then the wallets, which are live, frozen or closed, the escrows and \
                     the receipts.",
                )
                .arg(file())
                .arg(Arg::new("record").long("record").value_name("RECORDING").help(
                    "Write a recording, for `beacon replay`, to RECORDING, which must be a new file",
                )),
        ))
        .subcommand(replay_command())
        .subcommand(report::command())
        .subcommand(convert::command())
}

fn replay_command() -> Command {
    let command = Command::new("replay")
        .about("Replays a recording on a fresh ledger and compares the answers")
        .long_about(
            "Replays a recording on a fresh ledger and compares each answer and answer word. Stops \
             at the first entry that disagrees and prints it with both answers. The sizes of the \
             tables must be those that the recording was made with.",
        )
        .after_help(format!(
            "Exit status:\n  0  all entries agree\n  1  the recording cannot be read, or what was \
             found cannot be written\n  2  the command makes no sense\n  {}  an entry disagrees\n  {}  \
             the whole entries agree, and the last is cut short",
            replay::DISAGREES,
            replay::CUT_SHORT
        ))
        .arg(
            Arg::new("FILE")
                .required(true)
                .help("A recording, entries of 117 bytes; - is standard input"),
        );
    sizes::options(command)
}

pub fn flag(name: &'static str, help: &'static str) -> Arg {
    Arg::new(name)
        .long(name)
        .action(ArgAction::SetTrue)
        .help(help)
}

/// A number, with `_` or `,` between its digits if that is easier to read.
pub fn parse_number(text: &str) -> Result<u64, String> {
    let digits: String = text.chars().filter(|c| !matches!(c, '_' | ',')).collect();
    match digits.parse() {
        Ok(number) if digits.bytes().all(|byte| byte.is_ascii_digit()) => Ok(number),
        _ => Err("not a number from 0 to 18446744073709551615".to_owned()),
    }
}

/// What clap says on several lines, up to its hints on usage, as one.
fn one_line(text: &str) -> String {
    let what = text.strip_prefix("error: ").unwrap_or(text);
    let hints = ["Usage:", "For more info", "If you believe"];
    let mut line = String::new();
    for part in what.lines().map(str::trim) {
        if hints.iter().any(|hint| part.starts_with(hint)) {
            break;
        }
        if !line.is_empty() && !part.is_empty() {
            // a list goes on behind its colon, and after its other elements
            let list = line.ends_with(':') || part.starts_with(&['-', '[', '<'][..]);
            line += if list { " " } else { ". " };
        }
        line += part;
    }
    line
}
