//! What is watched at every step.

use super::Cluster;
use crate::checks::{self, Check, Fault};
use crate::news::News;
use engine::{text, Engine};
use model::{codec, Message, Refusal, Set};

impl<E: Engine> Cluster<'_, E> {
    /// Holds the servers as they are now against all that must hold.
    pub fn check(&mut self) {
        let fault = checks::check(&self.see(), &self.transactions);
        self.blame(fault);
    }

    /// Notes a broken promise, if none was noted before.
    pub fn blame(&mut self, fault: Option<Fault>) {
        if self.fault.is_none() {
            if let Some(fault) = &fault {
                self.story.end(|| format!("BROKEN: {}: {}", fault.check, fault.what));
            }
            self.fault = fault;
        }
    }

    /// The answer of a call, whose refusal must be one of those allowed.
    pub(super) fn lawful<T>(&mut self, answer: Result<T, Refusal>, allowed: &[Refusal], what: &str) -> Option<T> {
        match answer {
            Ok(answer) => Some(answer),
            Err(refusal) => {
                if !allowed.contains(&refusal) {
                    let what = format!("{what} was refused by {}", refusal.number());
                    self.blame(Some(Fault { check: Check::Refusals, what }));
                }
                None
            }
        }
    }

    /// Every Commit and Done of a number carries one and the same set.
    pub(super) fn watch_committed(&mut self, bytes: &[u8]) {
        if let Some((t, set)) = told(bytes) {
            let first = *self.committed.entry(t).or_insert(set);
            if first != set {
                let what = format!("T{t} is committed with {} and with {}", text::set(&first), text::set(&set));
                self.blame(Some(Fault { check: Check::Agreement, what }));
            }
        }
    }

    /// After every step of a server: a Commit or a Done answers how many it logged, nothing else logs any, and no closed number is left unrun.
    pub(super) fn watch_step(&mut self, server: u32, bytes: &[u8], answer: Option<&[u8]>) {
        let held = self.engine.see_ledger(&self.servers[server as usize]);
        match answered_count(server, bytes, answer) {
            Err(fault) => self.blame(Some(fault)),
            Ok(committed) => self.watch_runs(server, held.log.entries(), committed),
        }
        self.blame(checks::all_closed_ran(server, &held));
    }

    /// The log has grown by what was answered, and the runs so far have one order, and equal results and counters.
    fn watch_runs(&mut self, server: u32, log: &[u32], committed: Option<(u32, u32)>) {
        let place = server as usize;
        let (before, logged) = (self.ran[place].log.entries().len(), log.len());
        let many = committed.map_or(0, |(_, many)| many);
        if logged as u64 != before as u64 + u64::from(many) {
            let what = format!("server {server} answers {many}, had {before} in its log and has {logged}");
            return self.blame(Some(Fault { check: Check::Count, what }));
        }
        if let Some((t, _)) = committed {
            self.tally.note_commit(many);
            if many > 0 || !log.contains(&t) {
                self.report(News::Committed { server, t, many, log: log.to_vec() });
            }
        }
        if many == 0 {
            return;
        }
        let seen = self.engine.see_server(&self.servers[place]);
        let before = std::mem::replace(&mut self.ran[place], seen);
        self.tally.note_run(&before, &self.ran[place]);
        let fault = checks::one_order(&self.ran, &self.transactions)
            .or_else(|| checks::equal_results(&self.ran, &self.transactions))
            .or_else(|| checks::equal_counters(&self.ran, &self.transactions));
        self.blame(fault);
    }

    /// A run alone answers 0 and changes nothing: all that is closed has run.
    pub(super) fn watch_run_alone(&mut self, server: u32, many: u32, changed: bool) {
        if many != 0 || changed {
            let what = format!("a run alone at server {server} answers {many}");
            let what = if changed { what + ", and the server has changed" } else { what };
            self.blame(Some(Fault { check: Check::ClosedRan, what }));
        }
    }
}

/// The number of a Commit or a Done that was taken, and the count in its answer, a CommitOK of this server for the same number. Other messages and refusals have none.
fn answered_count(server: u32, bytes: &[u8], answer: Option<&[u8]>) -> Result<Option<(u32, u32)>, Fault> {
    let (t, answer) = match (told(bytes), answer) {
        (Some((t, _)), Some(answer)) => (t, answer),
        _ => return Ok(None),
    };
    match codec::decode(answer) {
        Ok(Message::CommitOk { t: of, server: from, ran }) if (of, from) == (t, server) => Ok(Some((t, ran))),
        _ => {
            let what = format!("server {server} answers the Commit of T{t} by {}", text::bytes(answer));
            Err(Fault { check: Check::Count, what })
        }
    }
}

/// The number and the set of a Commit or a Done.
fn told(bytes: &[u8]) -> Option<(u32, Set)> {
    match codec::decode(bytes) {
        Ok(Message::Commit { t, set, .. } | Message::Done { t, set, .. }) => Some((t, set)),
        _ => None,
    }
}
