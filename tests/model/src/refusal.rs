//! The refusal numbers.

/// Why a call is refused. Each case has the number of document 01.
#[derive(Clone, Copy, Debug, PartialEq, Eq, PartialOrd, Ord, Hash)]
pub enum Refusal {
    /// A number, server, coordinator, ballot or promise outside its range; a Prepare at ballot 0; a Start by another than the origin.
    OutOfRange = 1,
    /// The piece rules are broken.
    BadPieces = 2,
    /// A set or word holds its own number, or says something of a shard that the number doesn't touch.
    BadSet = 3,
    /// PreAccept, Accept or Prepare at a server whose shard isn't touched.
    Untouched = 4,
    /// Other pieces than those held.
    OtherPieces = 5,
    /// Another set than the committed one.
    OtherSet = 6,
    /// A "move on" that can't decide.
    CannotDecide = 7,
    /// A reply that the drive doesn't wait for; any event in phase 3.
    NotAwaited = 8,
    /// There is no next ballot.
    NoNextBallot = 9,
    /// The bytes end inside an item.
    CutShort = 10,
    /// Bytes are left after the message.
    BytesLeft = 11,
    /// An unknown code, a boolean that is neither 0 nor 1, a count above 8; a code that this side doesn't take.
    Unknown = 12,
    /// The lent state breaks its form.
    BrokenForm = 13,
    /// The output buffer is shorter than the message.
    ShortBuffer = 14,
}

impl Refusal {
    pub const ALL: [Refusal; 14] = [
        Refusal::OutOfRange,
        Refusal::BadPieces,
        Refusal::BadSet,
        Refusal::Untouched,
        Refusal::OtherPieces,
        Refusal::OtherSet,
        Refusal::CannotDecide,
        Refusal::NotAwaited,
        Refusal::NoNextBallot,
        Refusal::CutShort,
        Refusal::BytesLeft,
        Refusal::Unknown,
        Refusal::BrokenForm,
        Refusal::ShortBuffer,
    ];

    pub fn number(self) -> u32 {
        self as u32
    }

    /// The refusal of a number, if there is one.
    pub fn numbered(number: u32) -> Option<Refusal> {
        Refusal::ALL.into_iter().find(|r| r.number() == number)
    }
}

/// Refuses if `wrong`. A list of these, one a line, is an order of refusals.
pub(crate) fn refuse_if(wrong: bool, refusal: Refusal) -> Result<(), Refusal> {
    if wrong {
        Err(refusal)
    } else {
        Ok(())
    }
}
