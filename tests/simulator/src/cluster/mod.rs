//! Twelve servers and the drives of a history, and each step that can happen to them. Every step is told, counted and watched.

mod drives;
mod watch;

use crate::checks::Fault;
use crate::news::News;
use crate::story::Story;
use crate::tally::Tally;
use engine::{ask, text, Engine};
use model::cluster::SERVERS;
use model::{Pieces, Refusal, Server, Set};
use std::collections::BTreeMap;

/// A drive that is at work.
struct Live<D> {
    coordinator: u32,
    t: u32,
    drive: D,
}

pub struct Cluster<'e, E: Engine> {
    engine: &'e E,
    servers: Vec<E::Server>,
    /// Each server as it was after the last step at which it ran something.
    ran: Vec<Server>,
    live: Vec<Option<Live<E::Drive>>>,
    /// The numbers begun so far. A number names one transaction.
    transactions: BTreeMap<u32, Pieces>,
    /// The first set that was sent as committed, by number.
    committed: BTreeMap<u32, Set>,
    /// The highest ballot that a coordinator took for a number, so that none is taken twice.
    taken: BTreeMap<(u32, u32), u32>,
    pub story: Story,
    /// What happened that a watcher wants to know.
    pub news: Vec<News>,
    pub tally: Tally,
    pub fault: Option<Fault>,
}

impl<'e, E: Engine> Cluster<'e, E> {
    pub fn fresh(engine: &'e E, told: bool) -> Cluster<'e, E> {
        let servers: Vec<E::Server> =
            (0..SERVERS).map(|id| engine.fresh(id).expect("a server of the cluster is made")).collect();
        Cluster {
            engine,
            ran: servers.iter().map(|server| engine.see_server(server)).collect(),
            servers,
            live: Vec::new(),
            transactions: BTreeMap::new(),
            committed: BTreeMap::new(),
            taken: BTreeMap::new(),
            story: Story::new(told),
            news: Vec::new(),
            tally: Tally::default(),
            fault: None,
        }
    }

    pub fn transactions(&self) -> &BTreeMap<u32, Pieces> {
        &self.transactions
    }

    pub fn pieces(&self, t: u32) -> Pieces {
        self.transactions[&t]
    }

    /// The drives at work, by their places.
    pub fn live(&self) -> Vec<usize> {
        (0..self.live.len()).filter(|slot| self.live[*slot].is_some()).collect()
    }

    pub fn is_live(&self, slot: usize) -> bool {
        self.live[slot].is_some()
    }

    /// The number that a drive carries, if it is at work.
    pub fn carried(&self, slot: usize) -> Option<u32> {
        self.live[slot].as_ref().map(|live| live.t)
    }

    /// Notes what happened, and tells it.
    pub fn report(&mut self, news: News) {
        self.story.tell(|| news.to_string());
        self.news.push(news);
    }

    /// A server takes a message and answers it.
    pub fn take(&mut self, server: u32, bytes: &[u8]) -> Option<Vec<u8>> {
        self.watch_committed(bytes);
        let answer = ask(self.engine, &mut self.servers[server as usize], bytes);
        self.tally.taken += 1;
        self.story.tell(|| {
            let answer = match &answer {
                Ok(answer) => text::bytes(answer),
                Err(refusal) => format!("refused {}", refusal.number()),
            };
            format!("server {server} takes {}: {answer}", text::bytes(bytes))
        });
        self.watch_step(server, bytes, answer.as_deref().ok());
        let answer = self.lawful(answer, &[Refusal::Untouched], "a message to a server")?;
        self.watch_committed(&answer);
        Some(answer)
    }

    /// The host of a server calls a run alone, as at start-up: one group, or until 0. It has nothing to do.
    pub fn run(&mut self, server: u32, until_0: bool) {
        let state = &mut self.servers[server as usize];
        let before = state.clone();
        let ran = if until_0 { self.engine.run_all(state) } else { self.engine.run(state) };
        let changed = *state != before;
        self.tally.alone += 1;
        let many = self.lawful(ran, &[], "a run").unwrap_or(0);
        self.watch_run_alone(server, many, changed);
    }

    pub fn wanted(&mut self, server: u32) -> Set {
        let wanted = self.engine.wanted(&self.servers[server as usize]);
        self.lawful(wanted, &[], "wanted").unwrap_or_default()
    }

    /// Every server as it is now.
    pub fn see(&self) -> Vec<Server> {
        self.servers.iter().map(|server| self.engine.see_server(server)).collect()
    }
}
