//! Why a call was refused.

use std::error::Error;
use std::fmt;

/// Why a call was refused, by the numbers of document 01. After a refusal everything that was lent is as it was before the call.
///
/// docs/HOST.md says what a host does about each.
#[derive(Clone, Copy, Debug, PartialEq, Eq, PartialOrd, Ord, Hash)]
pub enum Refusal {
    /// 1: a number, server, coordinator, ballot or promise out of its range; a Prepare at ballot 0; a Start by another than the origin.
    BadNumber,
    /// 2: the piece rules are broken.
    BadPieces,
    /// 3: a set or arrival word with its own T, or of a shard that T does not touch.
    BadSet,
    /// 4: PreAccept, Accept or Prepare at a server whose shard T does not touch.
    Untouched,
    /// 5: other pieces than those held.
    OtherPieces,
    /// 6: a Commit or Done with another set than the committed one.
    OtherSet,
    /// 7: "move on" that cannot decide.
    Undecided,
    /// 8: a reply for another T, ballot or phase, or from a server that is counted or not addressed; any event in phase 3.
    Misplaced,
    /// 9: no next ballot.
    NoBallot,
    /// 10: the bytes end inside an item.
    BytesShort,
    /// 11: bytes are left after the message.
    BytesLeft,
    /// 12: an unknown code, a boolean that is not 0 or 1, a count above 8; or a code that this side does not take.
    NotTaken,
    /// 13: the state breaks its form.
    BadState,
    /// 14: the output is shorter than the message.
    OutputShort,
    /// Any other number. The archive's contracts give none: one that comes says that the archive linked is not the one that this
    /// crate was written for. It is an error like the others, so that it is neither taken for a success nor ends the host.
    Unlisted(u32),
}

impl Refusal {
    /// The refusals of document 01, the first at place 0 by number 1.
    pub const ALL: [Refusal; 14] = [
        Refusal::BadNumber,
        Refusal::BadPieces,
        Refusal::BadSet,
        Refusal::Untouched,
        Refusal::OtherPieces,
        Refusal::OtherSet,
        Refusal::Undecided,
        Refusal::Misplaced,
        Refusal::NoBallot,
        Refusal::BytesShort,
        Refusal::BytesLeft,
        Refusal::NotTaken,
        Refusal::BadState,
        Refusal::OutputShort,
    ];

    /// Its number in document 01.
    pub fn number(self) -> u32 {
        match self {
            Refusal::BadNumber => 1,
            Refusal::BadPieces => 2,
            Refusal::BadSet => 3,
            Refusal::Untouched => 4,
            Refusal::OtherPieces => 5,
            Refusal::OtherSet => 6,
            Refusal::Undecided => 7,
            Refusal::Misplaced => 8,
            Refusal::NoBallot => 9,
            Refusal::BytesShort => 10,
            Refusal::BytesLeft => 11,
            Refusal::NotTaken => 12,
            Refusal::BadState => 13,
            Refusal::OutputShort => 14,
            Refusal::Unlisted(number) => number,
        }
    }

    /// The refusal that a number says; 0 is none.
    pub fn numbered(number: u32) -> Option<Refusal> {
        let listed = |place| Refusal::ALL.get(place as usize).copied();
        number.checked_sub(1).map(|place| listed(place).unwrap_or(Refusal::Unlisted(number)))
    }

    /// What a call answered: its refusal, or else this.
    #[cfg(feature = "archive")]
    pub(crate) fn or<T>(number: u32, answer: T) -> Result<T, Refusal> {
        Refusal::numbered(number).map_or(Ok(answer), Err)
    }
}

impl fmt::Display for Refusal {
    fn fmt(&self, out: &mut fmt::Formatter) -> fmt::Result {
        let meaning = match self {
            Refusal::BadNumber => "a number, server, coordinator, ballot or promise is out of its range",
            Refusal::BadPieces => "the pieces break their rules",
            Refusal::BadSet => "a set names its own number, or a shard that the number does not touch",
            Refusal::Untouched => "the number has no piece on this server's shard",
            Refusal::OtherPieces => "the number is known with other pieces",
            Refusal::OtherSet => "the number is committed with another set",
            Refusal::Undecided => "there are too few answers to move on",
            Refusal::Misplaced => "the drive does not wait for this",
            Refusal::NoBallot => "no ballot is left for this coordinator",
            Refusal::BytesShort => "the bytes end inside an item",
            Refusal::BytesLeft => "bytes are left after the last item",
            Refusal::NotTaken => "nobody here takes this code, flag or count",
            Refusal::BadState => "the state breaks its form",
            Refusal::OutputShort => "the output is shorter than the message",
            Refusal::Unlisted(_) => "no refusal has this number, so another archive was linked",
        };
        write!(out, "refused {}: {meaning}", self.number())
    }
}

impl Error for Refusal {}
