//! The slips, one by one.

/// What was done wrong.
#[derive(Clone, Copy, Debug, PartialEq, Eq)]
pub enum Slip {
    /// A repeated PreAccept lowers accepted to pre-accepted.
    PreAcceptForgetsAccepted,
    /// Recovery takes the commonest accepted set, of equals the lowest server's.
    CommonestAccepted,
    /// Phase 1 at ballot 0 goes to phase 3 when two words of three are equal in each shard, with those words.
    FastOnTwoOfThree,
    /// A repeated PreAccept works out the arrival word anew.
    ArrivalWordChanges,
    /// Phase 1 takes what all counted words have, in place of what any has.
    IntersectionForUnion,
    /// One answer in each shard is taken for enough.
    OneAnswerIsEnough,
    /// Servers with an even number run a group in falling order.
    GroupFallsAtEvenServers,
    /// Recovery takes the accepted set of the lowest ballot.
    LowestAccepted,
    /// A promise above the ballot isn't looked at.
    PromiseIgnored,
    /// An impostor: a server that always says Behind.
    AlwaysBehind,
    /// An impostor: a server whose arrival words are always empty.
    AlwaysEmpty,
    /// An impostor: a server that answers and stores nothing.
    StoresNothing,
    /// An impostor: a run that reports one more than ran.
    InventedCount,
    /// An impostor: a run until 0 that executes the first group and only logs the others.
    FirstGroupOnly,
    /// A Commit answers the count of its last run in place of the sum.
    LastRunCounted,
    /// A Commit runs one group, and leaves the others that are ready.
    CommitRunsOneGroup,
    /// A Done is committed and runs nothing.
    DoneDoesNotRun,
    /// The count of a CommitOK stands before the server.
    CountBeforeServer,
    /// Servers with an even number take an add that fits although the counter is full.
    FullAddTakenAtEvenServers,
    /// Servers with an even number leave the full mark at a put.
    PutLeavesFullAtEvenServers,
    /// Servers with an even number don't mark the read of a full counter.
    FullReadUnmarkedAtEvenServers,
    /// Servers with an even number keep an add that doesn't fit, and don't set the full mark.
    KeptAddNotFullAtEvenServers,
    /// The fast path at a recovery ballot.
    FastAtRecovery,
    /// Recovery asks anew although it has equal words.
    EqualWordsIgnored,
    /// Again forgets the promises that it saw.
    AgainForgetsPromises,
    /// A promise above the ballot is answered Behind although the number is committed.
    BehindBeforeDone,
    /// A Commit with another set than the committed one is refused, and yet what is ready runs.
    RefusedCommitRuns,
    /// A repeated Commit runs nothing, whatever is ready.
    RepeatDoesNotRun,
}

impl Slip {
    pub const ALL: [Slip; 28] = [
        Slip::PreAcceptForgetsAccepted,
        Slip::CommonestAccepted,
        Slip::FastOnTwoOfThree,
        Slip::ArrivalWordChanges,
        Slip::IntersectionForUnion,
        Slip::OneAnswerIsEnough,
        Slip::GroupFallsAtEvenServers,
        Slip::LowestAccepted,
        Slip::PromiseIgnored,
        Slip::AlwaysBehind,
        Slip::AlwaysEmpty,
        Slip::StoresNothing,
        Slip::InventedCount,
        Slip::FirstGroupOnly,
        Slip::LastRunCounted,
        Slip::CommitRunsOneGroup,
        Slip::DoneDoesNotRun,
        Slip::CountBeforeServer,
        Slip::FullAddTakenAtEvenServers,
        Slip::PutLeavesFullAtEvenServers,
        Slip::FullReadUnmarkedAtEvenServers,
        Slip::KeptAddNotFullAtEvenServers,
        Slip::FastAtRecovery,
        Slip::EqualWordsIgnored,
        Slip::AgainForgetsPromises,
        Slip::BehindBeforeDone,
        Slip::RefusedCommitRuns,
        Slip::RepeatDoesNotRun,
    ];

    /// Whether a history can break a promise by it. The others are told from the model by their steps alone: no lawful history has a refusal 6, nor a number that is ready before a Commit.
    pub fn breaks_promises(self) -> bool {
        !matches!(
            self,
            Slip::FastAtRecovery
                | Slip::EqualWordsIgnored
                | Slip::AgainForgetsPromises
                | Slip::BehindBeforeDone
                | Slip::RefusedCommitRuns
                | Slip::RepeatDoesNotRun
        )
    }

    pub fn words(self) -> &'static str {
        match self {
            Slip::PreAcceptForgetsAccepted => "a repeated PreAccept lowers accepted to pre-accepted",
            Slip::CommonestAccepted => "recovery takes the commonest accepted set",
            Slip::FastOnTwoOfThree => "the fast path on two equal words of three",
            Slip::ArrivalWordChanges => "a repeated PreAccept changes the arrival word",
            Slip::IntersectionForUnion => "the intersection of the words for their union",
            Slip::OneAnswerIsEnough => "one answer in each shard is enough",
            Slip::GroupFallsAtEvenServers => "a group runs in falling order at even servers",
            Slip::LowestAccepted => "recovery takes the accepted set of the lowest ballot",
            Slip::PromiseIgnored => "a server ignores its promise",
            Slip::AlwaysBehind => "a server always says Behind",
            Slip::AlwaysEmpty => "a server always answers an empty word",
            Slip::StoresNothing => "a server answers and stores nothing",
            Slip::InventedCount => "a run reports an invented number",
            Slip::FirstGroupOnly => "a run until 0 executes the first group and only logs the rest",
            Slip::LastRunCounted => "a Commit answers the count of its last run in place of the sum",
            Slip::CommitRunsOneGroup => "a Commit runs one group only",
            Slip::DoneDoesNotRun => "a Done is committed and does not run",
            Slip::CountBeforeServer => "the count of a CommitOK stands before the server",
            Slip::FullAddTakenAtEvenServers => "an add that fits is taken at even servers although the counter is full",
            Slip::PutLeavesFullAtEvenServers => "a put leaves the full mark at even servers",
            Slip::FullReadUnmarkedAtEvenServers => "the read of a full counter is not kept at even servers",
            Slip::KeptAddNotFullAtEvenServers => "a kept add does not set the full mark at even servers",
            Slip::FastAtRecovery => "the fast path at a recovery ballot",
            Slip::EqualWordsIgnored => "recovery asks anew although it has equal words",
            Slip::AgainForgetsPromises => "Again forgets the promises that it saw",
            Slip::BehindBeforeDone => "Behind is answered before Done",
            Slip::RefusedCommitRuns => "a Commit that is refused by 6 runs what is ready",
            Slip::RepeatDoesNotRun => "a repeated Commit does not run what is ready",
        }
    }
}
