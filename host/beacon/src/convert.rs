//! `beacon convert FILE`: turns a recording of the old form of replies into the new one.

use std::fs;
use std::io::{self, Write};
use std::os::unix::fs::MetadataExt;
use std::process::ExitCode;

use clap::{Arg, ArgGroup, ArgMatches, Command};
use milebeacon::{Recording, Refusal, Submission, ANSWERS, ENTRY_BYTES};

use crate::command::flag;
use crate::files;
use crate::kind::Kind;
use crate::problem::Problem;
use crate::show::entries;
use crate::whole::{self, Standing};

/// The exit status if the recording's own answers say that it is not in the old form.
pub const NOT_OLD: u8 = 6;

/// Where a record has its operation.
const OPERATION: usize = 2;

/// The command and its options.
pub fn command() -> Command {
    Command::new("convert")
        .about("Turns a recording of the old form of replies into the new one")
        .long_about(
            "Turns a recording of the old form into the new one. In the old form operation 7 was an \
             accept and operation 8 a dispute. In the new form both are operation 7, and flag bit 2 \
             is set for an accept. Records that were malformed in the old form get operation 0, and \
             stay malformed. All else stays as it is: every answer, and an entry that is cut short \
             at the end. A recording that agreed in the old form agrees in the new one, which \
             `beacon replay` tells.\n\n\
             Convert a recording once. Converted again, its accepts are malformed, and its disputes \
             are malformed or accepts.",
        )
        .after_help(format!("{DOUBTS}\n\n{WHOLE}\n\n{}", statuses()))
        .arg(
            Arg::new("FILE")
                .required(true)
                .help("A recording, entries of 117 bytes; - is standard input"),
        )
        .arg(
            Arg::new("to")
                .long("to")
                .value_name("NEW")
                .help("Write to NEW, a new file; - is standard output"),
        )
        .arg(flag("in-place", "Replace FILE"))
        .group(ArgGroup::new("where").args(["to", "in-place"]).required(true))
        .arg(flag("overwrite", "Replace NEW if it is there").conflicts_with("in-place"))
        .arg(flag(
            "force",
            "Convert FILE even if its answers say that it is not in the old form",
        ))
}

const DOUBTS: &str = "\
A recording is refused if its own answers say that it is in the new form already: one
with an accept of the new form, or a dispute with a reason, that was answered other
than 1 to 3, as the old form knows no such record and answers 3. Likewise one with a
dispute of no reason that was answered 35, or an operation 8 that was answered 3. If
there is no such entry it cannot be told, and the recording is converted. A file with a
number that no answer has is refused too, as it may be no recording.";

const WHOLE: &str = "\
A file is written whole or not at all: in the same folder first, as .beacon-*.draft,
and renamed once it is on the disk. One that is replaced keeps its permissions, and is
left as it is if its owner or group would change. A link stays a link, and what it
leads to is replaced. Nothing else may write to FILE meanwhile.";

fn statuses() -> String {
    format!(
        "Exit status:\n  0  the recording is converted\n  1  it cannot be read, or the new one \
         cannot be written; no file has changed unless\n     the message says so\n  2  the command \
         makes no sense\n  {NOT_OLD}  its own answers say that it is not in the old form; no file has \
         changed"
    )
}

/// Converts the recording and says what was done. That goes to standard output, or to standard error
/// if the recording itself goes there.
pub fn convert(matches: &ArgMatches, output: &mut Vec<u8>) -> Result<ExitCode, Problem> {
    let word = |name| matches.get_one::<String>(name).map(String::as_str);
    let path = word("FILE").unwrap_or("-");
    let target = match word("to") {
        Some("-") => Target::Output,
        Some(new) => Target::other(path, new, matches.get_flag("overwrite"))?,
        None => Target::itself(path)?,
    };
    let old = Recording::from_bytes(files::read(path)?);
    let mut new = old.clone();
    new.convert();
    let doubt = doubt(&old, &new).filter(|_| !matches.get_flag("force"));
    if let Some(doubt) = doubt {
        return Err(Problem::NotOld(format!(
            "{path} {doubt}; nothing was written, and --force converts it all the same"
        )));
    }
    let told = told(path, &old, &new);
    let done = match target {
        Target::Output => {
            output.extend_from_slice(new.as_bytes());
            eprint!("{told}");
            return Ok(ExitCode::SUCCESS);
        }
        Target::New { name, mode } => {
            whole::create(name, mode, new.as_bytes())?;
            format!("{name} is written")
        }
        Target::Standing { name, file } => {
            file.replace(new.as_bytes())?;
            format!("{name} is replaced")
        }
    };
    say(&format!("{told}{done}\n"), &done)?;
    Ok(ExitCode::SUCCESS)
}

/// Where the converted recording goes.
enum Target<'a> {
    /// Standard output.
    Output,
    /// A file that is not there yet, and the permissions that it is to have.
    New { name: &'a str, mode: u32 },
    /// A file that is there.
    Standing { name: &'a str, file: Standing<'a> },
}

impl<'a> Target<'a> {
    /// The recording itself.
    fn itself(path: &'a str) -> Result<Target<'a>, Problem> {
        if path == "-" {
            let line = "--in-place needs a file: standard input cannot be replaced";
            return Err(Problem::Usage(line.to_owned()));
        }
        files::look_for(path)?;
        let file = Standing::find(path)?;
        Ok(Target::Standing { name: path, file })
    }

    /// Another file: a new one, or one that may be overwritten.
    fn other(path: &str, name: &'a str, overwrite: bool) -> Result<Target<'a>, Problem> {
        let about = if path == "-" {
            None
        } else {
            Some(files::look_for(path)?)
        };
        if about.as_ref().map_or(false, |about| is_same(about, name)) {
            return Err(Problem::Input(format!(
                "{name} is {path} itself and was left as it is; --in-place replaces it"
            )));
        }
        if fs::symlink_metadata(name).is_err() {
            // who may not read the recording may not read what it is converted to
            let about = about.filter(fs::Metadata::is_file);
            let mode = about.map_or(0o666, |about| about.mode() & 0o777);
            return Ok(Target::New { name, mode });
        }
        if !overwrite {
            return Err(whole::is_there(name, "; --overwrite replaces it"));
        }
        let file = Standing::find(name)?;
        Ok(Target::Standing { name, file })
    }
}

/// Whether this is the file of that name, which may be a link, or another name of it.
fn is_same(about: &fs::Metadata, name: &str) -> bool {
    let other = fs::metadata(name);
    other.map_or(false, |other| {
        (other.dev(), other.ino()) == (about.dev(), about.ino())
    })
}

/// Why the recording does not seem to be in the old form, by its own answers: the first entry that
/// says so.
fn doubt(old: &Recording, new: &Recording) -> Option<String> {
    let pairs = (1..).zip(old.entries().zip(new.entries()));
    for (number, (old, new)) in pairs {
        let said = old.recorded;
        if usize::from(said.number) >= ANSWERS {
            return Some(format!(
                "may be no recording: entry {number} was answered {said}"
            ));
        }
        let answered = |refusal: Refusal| u64::from(said.number) == refusal.number();
        let is_new = match (old.record[OPERATION], new.record[OPERATION]) {
            // malformed in the old form, and a reply in the new one
            (7, 0) => !matches!(said.number, 1..=3) && Submission::read(old.record).is_ok(),
            // an accept in the old form, which needs no reason
            (7, _) => answered(Refusal::DisputeReasonRequired),
            // well formed in the old form
            (8, 7) => answered(Refusal::MalformedRecord),
            _ => false,
        };
        if is_new {
            let name = Kind::of(old.record).map_or("no operation", Kind::name);
            return Some(format!(
                "is in the new form already, by its own answers: entry {number} ({name}: {said}) \
                 could not be so in the old one"
            ));
        }
    }
    None
}

/// What converting has done.
fn told(path: &str, old: &Recording, new: &Recording) -> String {
    let (mut accepts, mut disputes, mut malformed) = (0, 0, 0);
    for (old, new) in old.entries().zip(new.entries()) {
        match (old.record[OPERATION], new.record[OPERATION]) {
            (_, 0) => malformed += 1,
            (7, _) => accepts += 1,
            (8, _) => disputes += 1,
            _ => {}
        }
    }
    let many = |number: u64, what| match number {
        1 => format!("1 {what}"),
        _ => format!("{number} {what}s"),
    };
    let mut text = format!(
        "{path}: {}, of which {} and {} converted; {malformed} malformed in the old form\n",
        entries(old.len() as u64),
        many(accepts, "accept"),
        many(disputes, "dispute"),
    );
    let cut = old.cut().len();
    if cut > 0 {
        text += &format!(
            "{path} ends amid an entry, which stays as it was: {cut} of {ENTRY_BYTES} bytes are \
             there\n"
        );
    }
    text
}

/// Says on standard output what is done. It is done also if it cannot be said, and who reads only the
/// complaint must know that, lest it be done again.
fn say(text: &str, done: &str) -> Result<(), Problem> {
    let mut stdout = io::stdout().lock();
    let said = stdout
        .write_all(text.as_bytes())
        .and_then(|()| stdout.flush());
    match said {
        Err(error) if error.kind() != io::ErrorKind::BrokenPipe => Err(Problem::io(
            format_args!("{done}, but cannot write to standard output"),
            &error,
        )),
        _ => Ok(()),
    }
}
