//! `beacon record OPERATION ..`: writes a record.

use std::process::ExitCode;
use std::time::{SystemTime, UNIX_EPOCH};

use clap::ArgMatches;
use milebeacon::{
    Claim, Envelope, EscrowNumber, Freezable, Operation, ReceiptNumber, Reply, Submission,
    RECORD_BYTES,
};

use crate::files;
use crate::kind::Kind;
use crate::problem::Problem;

const MINUTE_MS: u64 = 60_000;
const HOUR_MS: u64 = 60 * MINUTE_MS;
const DAY_MS: u64 = 24 * HOUR_MS;
const LAST_TIME_MS: u64 = (1 << 48) - 1;

/// Writes the record that the words describe, to the file of `--out` or to standard output.
pub fn write(matches: &ArgMatches, output: &mut Vec<u8>) -> Result<ExitCode, Problem> {
    let (name, matches) = matches
        .subcommand()
        .ok_or_else(|| Problem::Usage("say which operation; --help lists them".to_owned()))?;
    let kind = Kind::all()
        .find(|kind| kind.name() == name)
        .ok_or_else(|| Problem::Usage(format!("{name} is no operation")))?;
    let submission = submission(kind, &Options(matches))?;
    let record = submission
        .to_record()
        .map_err(|_| Problem::Input(format!("no {name} record: {}", fault(&submission))))?;
    match matches.get_one::<String>("out") {
        Some(path) => append_whole(path, &record)?,
        None => output.extend_from_slice(&record),
    }
    Ok(ExitCode::SUCCESS)
}

/// Adds the record, unless the file ends amid another.
fn append_whole(path: &str, record: &[u8]) -> Result<(), Problem> {
    if let Ok(about) = std::fs::metadata(path) {
        let short = about.len() % RECORD_BYTES as u64;
        if about.is_file() && short != 0 {
            return Err(Problem::Input(format!(
                "{path} ends with a short piece of {short} bytes; nothing was added"
            )));
        }
    }
    files::append(path, record)
}

/// The options by name.
struct Options<'a>(&'a ArgMatches);

impl Options<'_> {
    fn maybe(&self, name: &str) -> Option<u64> {
        self.0.get_one::<u64>(name).copied()
    }

    fn number(&self, name: &str) -> u64 {
        self.maybe(name).unwrap_or(0)
    }

    fn flag(&self, name: &str) -> bool {
        self.0.get_flag(name)
    }
}

fn submission(kind: Kind, options: &Options<'_>) -> Result<Submission, Problem> {
    let now = options.maybe("now").unwrap_or_else(machine_clock);
    if kind == Kind::Plain(Operation::Sweep) {
        return Ok(Submission::sweep(now, options.number("amount")));
    }
    let asks_for_admin = matches!(
        kind,
        Kind::Plain(
            Operation::Grant
                | Operation::Release
                | Operation::Refund
                | Operation::Freeze
                | Operation::Caps
                | Operation::Close
        )
    );
    let issued = options.maybe("issued").unwrap_or(now);
    let envelope = Envelope {
        now,
        signer: options.number("signer"),
        nonce: options.maybe("nonce").unwrap_or(1),
        issued,
        expires: options
            .maybe("expires")
            .unwrap_or_else(|| after(issued, MINUTE_MS)),
        signed: !options.flag("unsigned"),
        admin: asks_for_admin && options.flag("admin"),
    };
    match kind {
        Kind::Reply(reply) => Ok(replying(reply, envelope, options)),
        Kind::Plain(operation) => plain(operation, envelope, options),
    }
}

fn replying(reply: Reply, envelope: Envelope, options: &Options<'_>) -> Submission {
    let receipt = ReceiptNumber(options.number("target"));
    match reply {
        Reply::Accept => Submission::accept(envelope, receipt),
        Reply::Dispute => Submission::dispute(envelope, receipt, options.flag("reason")),
    }
}

fn plain(
    operation: Operation,
    envelope: Envelope,
    options: &Options<'_>,
) -> Result<Submission, Problem> {
    let target = options.number("target");
    let amount = || options.number("amount");
    let until = |from, usual| {
        let until = options.maybe("until");
        until.unwrap_or_else(|| after(from, usual))
    };
    Ok(match operation {
        Operation::Grant => Submission::grant(envelope, target, amount()),
        Operation::Transfer => Submission::transfer(envelope, target, amount()),
        Operation::Open => {
            let until = until(envelope.now, DAY_MS);
            Submission::open(envelope, target, amount(), until)
        }
        Operation::Release => Submission::release(envelope, EscrowNumber(target)),
        Operation::Refund => Submission::refund(envelope, EscrowNumber(target)),
        Operation::Claim => {
            let claim = Claim {
                requester: target,
                until: until(envelope.issued, HOUR_MS),
                escrow: options
                    .maybe("link")
                    .filter(|&link| link != 0)
                    .map(EscrowNumber),
                hash: hash(options)?,
                auto_accept: options.flag("auto-accept"),
            };
            Submission::claim(envelope, claim)
        }
        Operation::Freeze => {
            let what = if target == 0 {
                Freezable::System
            } else {
                Freezable::Wallet(target)
            };
            Submission::freeze(envelope, what, !options.flag("thaw"))
        }
        Operation::Caps => Submission::caps(envelope, target, amount(), options.number("link")),
        Operation::Close => Submission::close(envelope, target),
        other => return Err(Problem::Usage(format!("{other} has no options here"))),
    })
}

/// Milliseconds since 1970.
fn machine_clock() -> u64 {
    let since = SystemTime::now()
        .duration_since(UNIX_EPOCH)
        .unwrap_or_default();
    u64::try_from(since.as_millis()).unwrap_or(u64::MAX)
}

/// A default that lies after a moment, but not after the last one there is.
fn after(moment: u64, span: u64) -> u64 {
    moment.saturating_add(span).min(LAST_TIME_MS.max(moment))
}

fn hash(options: &Options<'_>) -> Result<[u8; 32], Problem> {
    let mut hash = [0; 32];
    if let Some(text) = options.0.get_one::<String>("hash") {
        let wrong = || Problem::Usage(format!("--hash {text:?} is not 64 hex digits"));
        if text.len() != 64 || !text.bytes().all(|byte| byte.is_ascii_hexdigit()) {
            return Err(wrong());
        }
        for (byte, pair) in hash.iter_mut().zip(text.as_bytes().chunks_exact(2)) {
            let pair = std::str::from_utf8(pair).map_err(|_| wrong())?;
            *byte = u8::from_str_radix(pair, 16).map_err(|_| wrong())?;
        }
    }
    Ok(hash)
}

/// Why the writer takes these fields for malformed. All parts that the operation does not use are 0
/// already.
fn fault(s: &Submission) -> String {
    let times = [
        ("now", s.now),
        ("issued", s.issued),
        ("expires", s.expires),
        ("until", s.until),
    ];
    if s.signer == 0 && s.op != Operation::Sweep.number() {
        return "the signer is 0".to_owned();
    }
    if let Some((name, time)) = times.into_iter().find(|&(_, time)| time > LAST_TIME_MS) {
        return format!("{name} {time} is after the last time, {LAST_TIME_MS}");
    }
    if s.expires < s.issued {
        return format!(
            "it expires at {}, before it is issued at {}",
            s.expires, s.issued
        );
    }
    "it is malformed".to_owned()
}
