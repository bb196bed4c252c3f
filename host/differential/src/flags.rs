//! The flag bits of a step's record.

use second::Form;

use crate::replies::{ACCEPT, DISPUTE, OTHER_FORM};
use crate::step::Step;
use crate::view::View;

/// A reply as the form of today has it not: operation 8 with the flags that a dispute had.
const NOT_TODAYS: [(u8, u8); 5] = [
    (8, 0b1001),
    (8, 0b0001),
    (8, 0b1000),
    (8, 0b0000),
    // as a reply of today has it, but for the operation
    (8, 0b0101),
];

/// And as the old form had it not: operation 7 with the flags of today's replies, and 8 with bit 2.
const NOT_OLD: [(u8, u8); 6] = [
    (7, 0b0101),
    (7, 0b1001),
    (7, 0b1101),
    (8, 0b0101),
    (8, 0b1101),
    (7, 0b0100),
];

impl Step {
    /// The operation and the flags of a reply if nothing else is asked for.
    pub(crate) fn reply(&self, form: Form) -> (u8, u8) {
        // another part of the number than the one that says which receipt is meant
        let pick = self.pick() as usize / 61;
        match (self.kind(), form) {
            (ACCEPT, Form::New) => (7, 0b0101),
            (ACCEPT, Form::Old) => (7, 0b0001),
            (DISPUTE, Form::New) => (7, 0b1001),
            (DISPUTE, Form::Old) => (8, 0b1001),
            (_, Form::New) => NOT_TODAYS[pick % NOT_TODAYS.len()],
            (_, Form::Old) => NOT_OLD[pick % NOT_OLD.len()],
        }
    }

    pub(crate) fn flag_bits(&self, form: Form, view: &View<'_>, op: u8, target: u64) -> u8 {
        let odd = self.pick % 2 == 1;
        let natural = match op {
            _ if matches!(self.kind(), ACCEPT | DISPUTE | OTHER_FORM) => self.reply(form).1,
            1 | 11 | 12 => 0b0011,
            6 if odd => 0b0101,
            10 => {
                let frozen = if target == 0 {
                    view.system_frozen()
                } else {
                    view.wallet_frozen(target)
                };
                if frozen {
                    0b0011
                } else {
                    0b0111
                }
            }
            _ => 0b0001,
        };
        match self.flags {
            1 => natural & !0b0001,
            2 | 3 => natural ^ 0b0010,
            4 => natural ^ 0b0100,
            5 => natural ^ 0b1000,
            6 => natural | 0b0001_0000,
            7 => natural | 0b1000_0000,
            // any of the bits that some operation uses
            8 => (self.pick() / 16 % 16) as u8,
            _ => natural,
        }
    }
}
