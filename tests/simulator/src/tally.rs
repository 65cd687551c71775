//! How often each path of the protocol was taken, so that a quiet simulator is seen to be one that tried everything.

use crate::checks;
use engine::ran::{pieces_run, Done};
use engine::Ledger;
use model::cluster::has;
use model::drive::{ACCEPT, COMMIT, PREPARE, PRE_ACCEPT};
use model::pieces::PUT;
use model::{Drive, Message, Server};

macro_rules! tally {
    ($($field:ident: $what:literal),* $(,)?) => {
        #[derive(Clone, Copy, Debug, Default)]
        pub struct Tally {
            $(pub $field: u64),*
        }

        impl Tally {
            pub fn add(&mut self, other: &Tally) {
                $(self.$field += other.$field;)*
            }

            /// Each count with its words.
            pub fn entries(&self) -> Vec<(&'static str, u64)> {
                vec![$(($what, self.$field)),*]
            }
        }
    };
}

tally! {
    taken: "messages taken by servers",
    heard: "replies taken by drives",
    lost: "messages lost",
    repeated: "messages delivered again",
    cuts: "trunks cut inside an exchange",
    downs: "stations down for hours",
    fast: "numbers decided at once by equal words",
    slow: "numbers decided by a union of words",
    from_accepted: "recoveries that found an accepted set",
    from_words: "recoveries that found equal words",
    asked_anew: "recoveries that had to ask anew",
    told: "drives that heard Done",
    behind: "drives that heard Behind",
    recovered: "recoveries begun",
    again: "drives that went on at their next ballot",
    vanished: "drives that vanished",
    ran_none: "Commits and Dones after which nothing ran",
    ran_one: "Commits and Dones after which one number ran",
    ran_more: "Commits and Dones after which more numbers ran",
    groups: "groups of two or more numbers that ran together",
    ran: "numbers run",
    alone: "runs alone, which found nothing to run",
    filled: "adds that left a counter full",
    met_full: "adds and reads that found a counter full",
    cleared: "puts that cleared a full counter",
    inquiries: "inquiries after wanted numbers",
}

impl Tally {
    /// Notes how many numbers ran at a Commit or a Done.
    pub fn note_commit(&mut self, many: u32) {
        *[&mut self.ran_none, &mut self.ran_one, &mut self.ran_more][many.min(2) as usize] += 1;
        self.ran += u64::from(many);
    }

    /// Notes the groups that ran at a server, and what they did to its full marks.
    pub fn note_run(&mut self, before: &Server, after: &Server) {
        let ran = &after.log.entries()[before.log.entries().len()..];
        let held = Ledger::of(after);
        let ahead = |t: u32, u: u32| has(checks::before(&held, u), t);
        let together: Vec<bool> = ran.windows(2).map(|two| ahead(two[0], two[1]) && ahead(two[1], two[0])).collect();
        let begins = |place: &usize| together[*place] && (*place == 0 || !together[place - 1]);
        self.groups += (0..together.len()).filter(begins).count() as u64;
        for Done { piece, from, to } in pieces_run(before, after) {
            self.filled += u64::from(to.full && !from.full);
            self.met_full += u64::from(from.full && piece.kind != PUT);
            self.cleared += u64::from(from.full && piece.kind == PUT);
        }
    }

    /// Notes what a reply or a "move on" did to a drive.
    pub fn note_drive(&mut self, before: &Drive, after: &Drive, reply: Option<&Message>) {
        let done = matches!(reply, Some(Message::Done { .. }));
        let accepted_said = matches!(reply, Some(Message::PrepareOk { accepted: Some(_), .. }));
        let accepted = accepted_said || before.answers.iter().flatten().any(|answer| answer.accepted.is_some());
        match (before.phase, after.phase) {
            (_, COMMIT) if done => self.told += 1,
            (PREPARE, ACCEPT) if accepted => self.from_accepted += 1,
            (PREPARE, ACCEPT) => self.from_words += 1,
            (PREPARE, PRE_ACCEPT) => self.asked_anew += 1,
            (PRE_ACCEPT, ACCEPT) => self.slow += 1,
            (PRE_ACCEPT, COMMIT) => self.fast += 1,
            _ => {}
        }
        self.behind += u64::from(matches!(reply, Some(Message::Behind { .. })));
    }
}
