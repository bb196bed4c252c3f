//! The options of `beacon record`: what the record of each operation uses.

use clap::{Arg, Command};
use milebeacon::{Operation, Reply};

use crate::command::{flag, parse_number};
use crate::kind::Kind;

/// The command, with a subcommand for each operation, and for a reply two.
pub fn command() -> Command {
    let mut command = Command::new("record")
        .about("Writes a record")
        .disable_help_subcommand(true)
        .subcommand_required(true)
        .subcommand_value_name("OPERATION")
        .subcommand_help_heading("Operations");
    for kind in Kind::all() {
        command = command.subcommand(kind_command(kind));
    }
    command
}

/// A number that must be given.
fn number(name: &'static str, help: &'static str) -> Arg {
    maybe(name, help).required(true)
}

/// A number that may be given.
fn maybe(name: &'static str, help: &'static str) -> Arg {
    Arg::new(name)
        .long(name)
        .value_name("NUMBER")
        .value_parser(parse_number)
        .help(help)
}

/// Until when a receipt can be accepted or disputed, and what becomes of it then.
const REPLY_WINDOW: &str = "\
The last moment for a reply is the receipt's acceptance deadline. A later one is
answered 41 acceptance_closed, also if no sweep has come yet. The sweep accepts a
receipt that was claimed with --auto-accept, and any other expires.";

/// Which wallets can be closed, and what that means for them.
const CLOSING: &str = "\
Only an empty wallet can be closed. One that has balance, locked credits or an open
escrow to it is answered 42 wallet_not_empty, also if that escrow is past its
deadline and waits for a sweep. A closed wallet keeps its row and stays closed: a
record that names it, another close too, is answered 43 wallet_closed. Wallets can
be closed while the system is frozen.";

/// What becomes of a record that names a closed wallet, by its target or by its signer too.
const TARGET_CLOSED: &str = "If the wallet is closed, the answer is 43 wallet_closed.";
const EITHER_CLOSED: &str =
    "If the signer's or the target's wallet is closed, the answer is 43 wallet_closed.";

/// The options of one kind: what its record uses, and nothing else.
fn kind_command(kind: Kind) -> Command {
    let command = Command::new(kind.name())
        .about(about(kind))
        .after_help(more(kind))
        .arg(maybe(
            "now",
            "The clock, in milliseconds [default: this machine's]",
        ))
        .arg(
            Arg::new("out")
                .long("out")
                .value_name("FILE")
                .help("Append the record to FILE [default: standard output]"),
        );
    match kind {
        Kind::Reply(reply) => reply_options(enveloped(command), reply),
        Kind::Plain(operation) if operation.has_envelope() => {
            own_options(enveloped(command), operation)
        }
        Kind::Plain(operation) => own_options(command, operation),
    }
}

fn enveloped(command: Command) -> Command {
    command
        .arg(number("signer", "The party that signs; not 0"))
        .arg(maybe(
            "nonce",
            "The signer's number for this record [default: 1]",
        ))
        .arg(maybe("issued", "When it was issued [default: now]"))
        .arg(maybe(
            "expires",
            "Until when it may settle [default: a minute after issue]",
        ))
        .arg(flag("unsigned", "No valid signature is held"))
}

fn reply_options(command: Command, reply: Reply) -> Command {
    let command = command.arg(number("target", "The receipt's number"));
    match reply {
        Reply::Accept => command,
        Reply::Dispute => command.arg(flag("reason", "A reason was given")),
    }
}

fn own_options(command: Command, operation: Operation) -> Command {
    let admin = flag("admin", "The signer is an admin");
    match operation {
        Operation::Grant => command
            .arg(admin)
            .arg(number("target", "The wallet that is given credits"))
            .arg(number("amount", "How many micro-credits")),
        Operation::Transfer => command
            .arg(number("target", "The wallet that is paid"))
            .arg(number("amount", "How many micro-credits")),
        Operation::Open => command
            .arg(number("target", "The wallet for which credits are locked"))
            .arg(number("amount", "How many micro-credits"))
            .arg(maybe("until", "The deadline [default: a day after now]")),
        Operation::Release | Operation::Refund => command
            .arg(admin)
            .arg(number("target", "The escrow's number")),
        Operation::Claim => command
            .arg(number("target", "The requester's wallet"))
            .arg(maybe(
                "until",
                "The acceptance deadline, the last moment for a reply [default: an hour after issue]",
            ))
            .arg(maybe(
                "link",
                "The escrow that acceptance releases [default: none]",
            ))
            .arg(
                Arg::new("hash")
                    .long("hash")
                    .value_name("HEX")
                    .help("The hash of the work, 64 hex digits [default: zeros]"),
            )
            .arg(flag("auto-accept", "Accept it when its time is over")),
        Operation::Sweep => {
            command.arg(number("amount", "The most rows to close, 1 to 1000").alias("limit"))
        }
        Operation::Freeze => command
            .arg(admin)
            .arg(number("target", "The wallet; 0 is the whole system"))
            .arg(flag("thaw", "Thaw it again")),
        Operation::Caps => command
            .arg(admin)
            .arg(number("target", "The wallet"))
            .arg(number("amount", "The most that one payment may be"))
            .arg(
                number(
                    "link",
                    "The most that a day's transfers and opens may come to",
                )
                .alias("daily"),
            ),
        Operation::Close => command.arg(admin).arg(number("target", "The wallet")),
        _ => command,
    }
}

fn about(kind: Kind) -> &'static str {
    let operation = match kind {
        Kind::Reply(Reply::Accept) => return "Accepts a receipt, which releases its escrow",
        Kind::Reply(Reply::Dispute) => return "Disputes a receipt",
        Kind::Plain(operation) => operation,
    };
    match operation {
        Operation::Grant => "New credits for a wallet, by an admin",
        Operation::Transfer => "Pays another wallet",
        Operation::Open => "Locks credits in an escrow for another wallet",
        Operation::Release => "Pays an open escrow to its recipient",
        Operation::Refund => "Gives an open escrow back to its sender",
        Operation::Claim => "Claims work done for a requester",
        Operation::Sweep => "Closes receipts and escrows whose deadlines have passed",
        Operation::Freeze => "Freezes a wallet or the whole system, by an admin",
        Operation::Caps => "Sets a wallet's caps, by an admin",
        Operation::Close => "Closes an empty wallet for good, by an admin",
        _ => "",
    }
}

/// What a person had better know before writing one.
fn more(kind: Kind) -> &'static str {
    use Operation::{Caps, Claim, Close, Freeze, Grant, Open, Transfer};
    match kind {
        Kind::Reply(_) => REPLY_WINDOW,
        Kind::Plain(Transfer | Open | Claim) => EITHER_CLOSED,
        Kind::Plain(Grant | Freeze | Caps) => TARGET_CLOSED,
        Kind::Plain(Close) => CLOSING,
        Kind::Plain(_) => "",
    }
}
