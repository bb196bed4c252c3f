//! `beacon explain FILE`: prints records in words, with the answers to them.

use std::fmt::Write as _;
use std::process::ExitCode;

use milebeacon::{Ledger, Operation, Reply, Sizes, Submission, RECORD_BYTES};

use crate::files;
use crate::problem::Problem;
use crate::show::{credits, moment};

/// Prints each record of the file, and the answer that it gets when the file is settled on a fresh
/// ledger. Records that are malformed, and a short last piece, are a problem.
pub fn explain(path: &str, output: &mut Vec<u8>) -> Result<ExitCode, Problem> {
    let bytes = files::read(path)?;
    let mut ledger =
        Ledger::new(Sizes::PROGRAM).map_err(|refusal| Problem::Input(refusal.to_string()))?;
    let mut text = String::new();
    let mut malformed = 0;
    for (ordinal, piece) in (1..).zip(bytes.chunks(RECORD_BYTES)) {
        let line = Submission::read(piece).map_or_else(|_| None, |s| Some(sentence(&s)));
        malformed += u64::from(line.is_none());
        let line = line.unwrap_or_else(|| match piece.len() {
            RECORD_BYTES => "no well-formed record".to_owned(),
            short => format!("a short last piece of {short} bytes"),
        });
        let answer = ledger.submit(piece);
        let _ = writeln!(text, "{ordinal}: {line}");
        let _ = writeln!(text, "   {answer} (status {})", answer.status());
    }
    output.extend_from_slice(text.as_bytes());
    if malformed == 0 {
        return Ok(ExitCode::SUCCESS);
    }
    let pieces = bytes.chunks(RECORD_BYTES).count();
    Err(Problem::Input(format!(
        "{path}: {malformed} of {pieces} records are malformed"
    )))
}

/// A well-formed record in words.
pub fn sentence(s: &Submission) -> String {
    let target = s.target;
    let amount = credits(s.amount);
    let what = match s.operation() {
        Some(Operation::Grant) => format!("grant {amount} to wallet {target}"),
        Some(Operation::Transfer) => format!("transfer {amount} to wallet {target}"),
        Some(Operation::Open) => {
            format!(
                "open an escrow of {amount} for wallet {target} until {}",
                moment(s.until)
            )
        }
        Some(Operation::Release) => format!("release escrow {target}"),
        Some(Operation::Refund) => format!("refund escrow {target}"),
        Some(Operation::Claim) => claim(s),
        Some(Operation::Reply) => reply(s),
        Some(Operation::Sweep) => {
            return format!("at {}, sweep at most {} rows", moment(s.now), s.amount)
        }
        Some(Operation::Freeze) => {
            let verb = if s.has(Submission::FREEZE) {
                "freeze"
            } else {
                "thaw"
            };
            match target {
                0 => format!("{verb} the system"),
                id => format!("{verb} wallet {id}"),
            }
        }
        Some(Operation::Caps) => format!(
            "set the caps of wallet {target} to {amount} a payment and {} a day",
            credits(s.link)
        ),
        Some(Operation::Close) => format!("close wallet {target}"),
        Some(other) => other.to_string(),
        None => format!("operation {}", s.op),
    };
    let role = if s.has(Submission::ADMIN) {
        "admin "
    } else {
        ""
    };
    let signed = if s.has(Submission::SIGNED) {
        ""
    } else {
        ", not signed"
    };
    format!(
        "at {}, {role}{} asks (nonce {}, issued {}, expires {}{signed}) to {what}",
        moment(s.now),
        s.signer,
        s.nonce,
        moment(s.issued),
        moment(s.expires)
    )
}

fn reply(s: &Submission) -> String {
    let reason = match Reply::from_flags(s.flags) {
        Reply::Accept => "",
        Reply::Dispute if s.has(Submission::REASON) => ", with a reason",
        Reply::Dispute => ", with no reason",
    };
    format!(
        "{} receipt {}{reason}",
        Reply::from_flags(s.flags),
        s.target
    )
}

fn claim(s: &Submission) -> String {
    let hash: String = s
        .hash_bytes()
        .iter()
        .map(|byte| format!("{byte:02x}"))
        .collect();
    let escrow = match s.link {
        0 => String::new(),
        link => format!(" against escrow {link}"),
    };
    let auto = if s.has(Submission::AUTO_ACCEPT) {
        ", then accepted"
    } else {
        ""
    };
    format!(
        "claim work {hash} for wallet {}{escrow}, acceptance until {}{auto}",
        s.target,
        moment(s.until)
    )
}
