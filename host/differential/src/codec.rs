//! Reader, writer and statuses of both programs.

use milebeacon::{ffi, Submission, RECORD_BYTES};

use crate::coded::{self, Call};
use crate::dice::Dice;
use crate::record::{damaged, encode};
use crate::tally::Tally;
use crate::twin::{same, Difference};

/// The same fields as the second program has them.
fn seconds(s: &Submission) -> second::Submission {
    second::Submission {
        op: s.op,
        flags: s.flags,
        now: s.now,
        signer: s.signer,
        nonce: s.nonce,
        issued: s.issued,
        expires: s.expires,
        target: s.target,
        amount: s.amount,
        until: s.until,
        link: s.link,
        hash: s.hash,
    }
}

/// Reads bytes with both.
pub fn read(record: &[u8], tally: &mut Tally) -> Result<(u64, Submission), Difference> {
    let core = ffi::read(record);
    let (number, fields) = second::read(record);
    tally.other_calls += 1;
    same(
        "fields read",
        (core.number, seconds(&core.submission)),
        (number, fields),
    )?;
    let ways = coded::decided(Call::Read, record, number);
    tally.coded.count(ways);
    Ok((core.number, core.submission))
}

/// Writes fields with both into `out`, and compares its bytes.
pub fn write(s: &Submission, out: &mut [u8], tally: &mut Tally) -> Result<u64, Difference> {
    let mut seconds_out = out.to_vec();
    let core = ffi::write(*s, out);
    let second = second::write(&seconds(s), &mut seconds_out);
    tally.other_calls += 1;
    same("answer of the writer", core, second)?;
    same("bytes written", &out[..], &seconds_out[..])?;
    if out.len() == RECORD_BYTES {
        let ways = coded::decided(Call::Written, &encode(s), core);
        tally.coded.count(ways);
    }
    Ok(core)
}

/// Fields by chance, of which a part is well formed.
pub fn fields(dice: &mut Dice) -> Submission {
    // replies have most ways to be malformed by their flags
    let op = match dice.below(4) {
        0 => dice.pick(&[7, 7, 8]),
        _ => dice.below(14) as u8,
    };
    let time = |dice: &mut Dice| match dice.below(12) {
        0 => dice.edge(),
        1 => (1 << 48) - 1,
        _ => dice.word() >> 20,
    };
    let mut s = Submission {
        op,
        flags: dice.below(16) as u8,
        now: time(dice),
        signer: if dice.once_in(8) { 0 } else { dice.edge() },
        nonce: dice.edge(),
        issued: time(dice),
        expires: time(dice),
        target: dice.edge(),
        amount: dice.edge(),
        until: time(dice),
        link: dice.edge(),
        hash: [dice.edge(), dice.word(), dice.word(), dice.edge()],
    };
    if s.expires < s.issued && !dice.once_in(8) {
        std::mem::swap(&mut s.issued, &mut s.expires);
    }
    if !dice.once_in(8) {
        clear_unused(&mut s);
    }
    if dice.once_in(12) {
        s.flags = dice.word() as u8;
    }
    s
}

/// Sets to 0 what the operation does not use, as the table of operations has it; what was an operation
/// too.
fn clear_unused(s: &mut Submission) {
    let (bits, amount, until, link, hash) = match s.op {
        1 => (0b0011, true, false, false, false),
        2 => (0b0001, true, false, false, false),
        3 => (0b0001, true, true, false, false),
        4 | 5 => (0b0011, false, false, false, false),
        6 => (0b0101, false, true, true, true),
        // with both of its bits a reply is malformed, and so is an 8 with any, by nothing else
        7 | 8 => (0b1101, false, false, false, false),
        9 => {
            *s = Submission {
                op: s.op,
                now: s.now,
                amount: s.amount,
                ..Submission::default()
            };
            return;
        }
        10 => (0b0111, false, false, false, false),
        11 => (0b0011, true, false, true, false),
        12 => (0b0011, false, false, false, false),
        _ => (0, true, true, true, true),
    };
    s.flags &= bits;
    for (field, used) in [
        (&mut s.amount, amount),
        (&mut s.until, until),
        (&mut s.link, link),
    ] {
        if !used {
            *field = 0;
        }
    }
    if !hash {
        s.hash = [0; 4];
    }
}

/// Writes fields, reads them back, damages them, reads again, and writes into wrong lengths.
pub fn round(dice: &mut Dice, tally: &mut Tally) -> Result<(), Difference> {
    let s = fields(dice);
    let mut out = [dice.word() as u8; RECORD_BYTES];
    if write(&s, &mut out, tally)? == 0 {
        same("fields read back", read(&out, tally)?, (0, s))?;
    } else {
        read(&encode(&s), tally)?;
    }
    let bytes = damaged(encode(&s).to_vec(), dice.below(16) as u8, dice);
    let (number, fields) = read(&bytes, tally)?;
    if number == 0 {
        let mut back = [0; RECORD_BYTES];
        write(&fields, &mut back, tally)?;
        same("bytes written back", &back[..], &bytes[..])?;
    }
    let mut other = vec![7; dice.index(2 * RECORD_BYTES)];
    write(&s, &mut other, tally)?;
    Ok(())
}

/// The statuses of all answers, and of numbers that are none.
pub fn statuses(dice: &mut Dice, tally: &mut Tally) -> Result<(), Difference> {
    let edges = [
        255,
        256,
        1 << 32,
        (1 << 32) + 11,
        u64::MAX,
        dice.word(),
        dice.edge(),
    ];
    for number in (0..=64).chain(edges) {
        same("status", ffi::status(number), second::status(number))?;
        tally.other_calls += 1;
    }
    Ok(())
}
