//! `beacon report FILE..`: counts recordings by operation and answer, and adds up their credits.

use std::process::ExitCode;

use clap::{Arg, ArgMatches, Command};
use milebeacon::{Added, Entries, Ledger, Named, Refusal, Report, Sizes, ENTRY_BYTES};

use crate::command::flag;
use crate::counts::{self, Told};
use crate::problem::Problem;
use crate::waiting::while_counted;
use crate::{csv, files, sizes};

/// The exit status if the report stops. Those before it are a replay's.
pub const STOPPED: u8 = 5;

/// The command and its options.
pub fn command() -> Command {
    let command = Command::new("report")
        .about("Counts recordings by operation and answer, and adds up their credits")
        .long_about(
            "Replays each recording on a fresh ledger and counts its entries by operation and by \
             the core's own answer. Prints the grid of counts, a row for each answer and a column \
             for each operation, and the credits granted, transferred, released, refunded and \
             expired. Accepts and disputes are one operation, reply. Recorded answers are not looked \
             at: \
             `beacon replay` compares them. The sizes of the tables must be those that the \
             recordings were made with. An entry cut short at the end of a recording is not \
             counted, which is told on standard error.\n\n\
             If a figure would pass 2^64 - 1 the report stops before that entry, and names it.",
        )
        .after_help(format!(
            "{}\n\nExit status:\n  0  every whole entry is counted\n  1  a recording cannot be read, \
             and nothing is printed; or the report cannot be written\n  2  the command makes no \
             sense\n  {STOPPED}  the report stopped, and is printed as far as it goes",
            csv::HELP
        ))
        .arg(
            Arg::new("FILE")
                .required(true)
                .num_args(1..)
                .help("Recordings, entries of 117 bytes; - is standard input"),
        )
        .arg(flag(
            "brief",
            "Leave out what is empty: print only the counts that are not 0, a line each",
        ))
        .arg(
            flag("csv", "Print comma-separated values, for a spreadsheet").conflicts_with("brief"),
        );
    sizes::options(command)
}

/// Adds the recordings to a report one after the other and prints it. A recording that cannot be
/// read is a problem, and nothing is printed then.
pub fn report(matches: &ArgMatches, output: &mut Vec<u8>) -> Result<ExitCode, Problem> {
    let paths: Vec<&str> = matches
        .get_many::<String>("FILE")
        .map_or_else(Vec::new, |paths| paths.map(String::as_str).collect());
    if paths.iter().filter(|&&path| path == "-").count() > 1 {
        let line = "standard input, -, can be read only once";
        return Err(Problem::Usage(line.to_owned()));
    }
    for path in paths.iter().filter(|&&path| path != "-") {
        files::look_for(path)?;
    }
    let counted = count(&paths, sizes::asked_for(matches))?;
    for warning in &counted.warnings {
        eprintln!("beacon: warning: {warning}");
    }
    let report = &counted.report;
    let text = if matches.get_flag("csv") {
        csv::csv(report)
    } else {
        let told = Told {
            recordings: counted.recordings,
            lacks: counted.stop.as_ref().map(|stop| stop.lacks(paths.len())),
        };
        if matches.get_flag("brief") {
            counts::lines(report, &told)
        } else {
            counts::grid(report, &told)
        }
    };
    output.extend_from_slice(text.as_bytes());
    match counted.stop {
        None => Ok(ExitCode::SUCCESS),
        Some(Stop {
            path,
            before,
            named,
            ..
        }) => Err(Problem::Stopped(format!(
            "stopped before entry {before} of {path}: {named}"
        ))),
    }
}

/// A report over recordings.
struct Counted<'a> {
    report: Report,
    /// How many recordings were added, one that the report stopped in among them.
    recordings: usize,
    /// The recordings that end amid an entry.
    warnings: Vec<String>,
    stop: Option<Stop<'a>>,
}

/// Where a report stopped.
struct Stop<'a> {
    path: &'a str,
    /// The recording, counted from 1.
    recording: usize,
    before: u64,
    named: Named,
}

impl Stop<'_> {
    /// What a report of so many recordings lacks.
    fn lacks(&self, recordings: usize) -> String {
        let Stop { path, before, .. } = self;
        let more = match recordings - self.recording {
            0 => String::new(),
            1 => ", nor is 1 more recording".to_owned(),
            more => format!(", nor are {more} more recordings"),
        };
        format!("incomplete: entry {before} of {path} and what follows it are not counted{more}")
    }
}

/// Adds the recordings one after the other, up to one in which the report stops.
fn count<'a>(paths: &[&'a str], sizes: Sizes) -> Result<Counted<'a>, Problem> {
    let refused = |refusal: Refusal| Problem::Input(refusal.to_string());
    let mut ledger = Ledger::new(sizes).map_err(refused)?;
    let mut counted = Counted {
        report: Report::new(),
        recordings: 0,
        warnings: Vec::new(),
        stop: None,
    };
    while_counted("counting recordings", paths.len(), |done| {
        for &path in paths {
            let recording = files::read(path)?;
            let added = counted
                .report
                .add(&mut ledger, &recording)
                .map_err(refused)?;
            counted.recordings += 1;
            match added {
                Added::All { .. } => {
                    let cut = Entries::new(&recording).cut().len();
                    if cut > 0 {
                        counted.warnings.push(format!(
                            "{path} ends amid an entry, which is not counted: {cut} of \
                             {ENTRY_BYTES} bytes are there"
                        ));
                    }
                }
                Added::Stopped { before, named } => {
                    let recording = counted.recordings;
                    counted.stop = Some(Stop {
                        path,
                        recording,
                        before,
                        named,
                    });
                    break;
                }
                // it ends with the recording in which it stops
                Added::HadStopped { .. } => break,
            }
            done.one_more();
        }
        Ok(counted)
    })
}
