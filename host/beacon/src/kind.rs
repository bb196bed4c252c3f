//! What a record is for, by the names that people know: an operation, or of a reply which one.

use milebeacon::{Operation, Reply};

/// What a record is for.
#[derive(Clone, Copy, Debug, PartialEq, Eq)]
pub enum Kind {
    /// An operation.
    Plain(Operation),
    /// One of the two replies, which are one operation.
    Reply(Reply),
}

impl Kind {
    /// Every kind that can be written, in the order of the operations.
    pub fn all() -> impl Iterator<Item = Kind> {
        Operation::ALL
            .iter()
            .flat_map(|&operation| match operation {
                Operation::Reply => [Reply::Accept, Reply::Dispute].map(Kind::Reply).to_vec(),
                other => vec![Kind::Plain(other)],
            })
    }

    /// The kind of a record, malformed or not, or of a piece of one; none for a byte that is no
    /// operation. A piece that ends before its flags may be a reply, and not say which.
    pub fn of(piece: &[u8]) -> Option<Kind> {
        let operation = Operation::from_number(*piece.get(2)?)?;
        Some(match (operation, piece.get(3)) {
            (Operation::Reply, Some(&flags)) => Kind::Reply(Reply::from_flags(flags)),
            _ => Kind::Plain(operation),
        })
    }

    /// Its name, as `accept`.
    pub fn name(self) -> &'static str {
        match self {
            Kind::Plain(operation) => operation.name(),
            Kind::Reply(reply) => reply.name(),
        }
    }
}

#[cfg(test)]
mod tests {
    use super::Kind;

    #[test]
    fn every_kind_has_a_name_of_its_own() {
        let names: Vec<&str> = Kind::all().map(Kind::name).collect();
        assert_eq!(
            names,
            [
                "grant", "transfer", "open", "release", "refund", "claim", "accept", "dispute",
                "sweep", "freeze", "caps", "close"
            ]
        );
    }

    #[test]
    fn a_reply_is_told_by_its_flags_also_if_it_is_malformed() {
        let name = |piece: &[u8]| Kind::of(piece).map(Kind::name);
        assert_eq!(name(&[0xA7, 0x3C, 7, 5]), Some("accept"));
        assert_eq!(name(&[0xA7, 0x3C, 7, 13]), Some("accept"));
        assert_eq!(name(&[0xA7, 0x3C, 7, 9]), Some("dispute"));
        assert_eq!(name(&[0xA7, 0x3C, 7]), Some("reply"));
        assert_eq!(name(&[0xA7, 0x3C, 6, 5]), Some("claim"));
        assert_eq!(name(&[0xA7, 0x3C, 8, 5]), None);
        assert_eq!(name(&[0xA7, 0x3C]), None);
    }
}
