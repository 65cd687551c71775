//! Twelve servers, a drive for each coordinator, and the commands of scenarios.

use engine::{ask, due, text, Engine};
use model::cluster::{COORDINATORS, SERVERS};
use model::{codec, Counter, Message, Pieces, Refusal};
use std::collections::BTreeMap;

/// A message with a name: who sent it.
struct Named {
    bytes: Vec<u8>,
    from: u32,
}

pub struct Stage<'e, E: Engine> {
    engine: &'e E,
    servers: Vec<E::Server>,
    drives: Vec<E::Drive>,
    pieces: BTreeMap<u32, Pieces>,
    named: Vec<Named>,
    cut: Vec<u32>,
}

type Said = Vec<String>;

impl<'e, E: Engine> Stage<'e, E> {
    pub fn fresh(engine: &'e E) -> Stage<'e, E> {
        Stage {
            engine,
            servers: (0..SERVERS).map(|id| engine.fresh(id).expect("a server of the cluster is made")).collect(),
            drives: (0..COORDINATORS).map(|_| engine.blank()).collect(),
            pieces: BTreeMap::new(),
            named: Vec::new(),
            cut: Vec::new(),
        }
    }

    /// What comes of a command, or nothing if there is no such command.
    pub fn obey(&mut self, command: &str) -> Option<Said> {
        let (subject, rest) = command.split_once(' ')?;
        match subject {
            "coordinator" => self.coordinator(rest),
            "servers" | "server" => self.servers(rest),
            "cut" => {
                let station = rest.parse().ok()?;
                self.cut.push(station);
                Some(vec![format!("the trunk at station {station} is down")])
            }
            "mend" => {
                let station: u32 = rest.parse().ok()?;
                self.cut.retain(|cut| *cut != station);
                Some(vec![format!("the trunk at station {station} is up")])
            }
            _ => None,
        }
    }

    fn coordinator(&mut self, rest: &str) -> Option<Said> {
        let words: Vec<&str> = rest.split_whitespace().collect();
        let coordinator: u32 = words.first()?.parse().ok()?;
        match *words.get(1)? {
            "starts" => {
                let t = number(words.get(2)?)?;
                let pieces = text::parse_pieces(&words[3..].join(" "))?;
                self.pieces.insert(t, pieces);
                self.event(coordinator, |engine, drive| engine.start(drive, coordinator, t, &pieces))
            }
            "recovers" => {
                let t = number(words.get(2)?)?;
                let floor = words.get(4)?.parse().ok()?;
                let pieces = *self.pieces.get(&t)?;
                self.event(coordinator, |engine, drive| engine.recover(drive, coordinator, t, &pieces, floor))
            }
            "moves" => self.event(coordinator, |engine, drive| engine.move_on(drive)),
            "goes" => self.event(coordinator, |engine, drive| engine.again(drive)),
            "vanishes" => {
                self.drives[coordinator as usize] = self.engine.blank();
                Some(Vec::new())
            }
            "sends" => self.send(coordinator),
            "hears" => words[2..].iter().map(|name| self.hear(coordinator, name)).collect(),
            _ => None,
        }
    }

    /// An event of a drive, and how it stands then.
    fn event(
        &mut self,
        coordinator: u32,
        event: impl FnOnce(&E, &mut E::Drive) -> Result<(), Refusal>,
    ) -> Option<Said> {
        let drive = self.drives.get_mut(coordinator as usize)?;
        let moved = event(self.engine, drive);
        Some(vec![match moved {
            Ok(()) => text::drive(&self.engine.see_drive(drive)),
            Err(refusal) => refused(refusal),
        }])
    }

    fn send(&mut self, coordinator: u32) -> Option<Said> {
        let drive = self.drives.get(coordinator as usize)?;
        Some(vec![match due(self.engine, drive) {
            Ok((bytes, servers)) => {
                let servers: Vec<u32> = (0..SERVERS).filter(|server| servers >> server & 1 == 1).collect();
                format!("{} to {}", self.name(bytes, coordinator), text::numbers(&servers))
            }
            Err(refusal) => refused(refusal),
        }])
    }

    fn hear(&mut self, coordinator: u32, name: &str) -> Option<String> {
        let message = self.find(name)?;
        let (bytes, from) = (message.bytes.clone(), message.from);
        match self.broken_trunk(from, coordinator) {
            Some(station) => Some(lost(station)),
            None => self.event(coordinator, |engine, drive| engine.reply(drive, &bytes))?.pop(),
        }
    }

    fn servers(&mut self, rest: &str) -> Option<Said> {
        let words: Vec<&str> = rest.split_whitespace().collect();
        let verb = words.iter().position(|word| word.parse::<u32>().is_err())?;
        let servers: Option<Vec<u32>> = words[..verb].iter().map(|word| word.parse().ok()).collect();
        let servers = servers.filter(|servers| servers.iter().all(|server| *server < SERVERS))?;
        let rest = &words[verb + 1..];
        let act: fn(&mut Self, u32, &[&str]) -> Option<String> = match words[verb] {
            "take" | "takes" => Self::take,
            "run" | "runs" => Self::run,
            "log" | "logs" => Self::log,
            "want" | "wants" => Self::wanted,
            "hold" | "holds" => Self::held,
            "count" | "counts" => Self::counters,
            _ => return None,
        };
        servers.into_iter().map(|server| act(self, server, rest)).collect()
    }

    fn take(&mut self, server: u32, what: &[&str]) -> Option<String> {
        let (bytes, from) = match what {
            ["Inquire", t] => (codec::bytes_of(&Message::Inquire { t: number(t)? }).ok()?, server),
            ["Fetch", t] => (codec::bytes_of(&Message::Fetch { t: number(t)? }).ok()?, server),
            [name] => self.find(name).map(|named| (named.bytes.clone(), named.from))?,
            _ => return None,
        };
        if let Some(station) = self.broken_trunk(from, server) {
            return Some(lost(station));
        }
        Some(match ask(self.engine, &mut self.servers[server as usize], &bytes) {
            Ok(answer) => self.name(answer, server),
            Err(refusal) => refused(refusal),
        })
    }

    fn run(&mut self, server: u32, _: &[&str]) -> Option<String> {
        let state = &mut self.servers[server as usize];
        Some(match self.engine.run_all(state) {
            Ok(many) => {
                let log = self.engine.see_server(state).log;
                format!("server {server} ran {many}, log {}", text::numbers(log.entries()))
            }
            Err(refusal) => refused(refusal),
        })
    }

    fn log(&mut self, server: u32, _: &[&str]) -> Option<String> {
        let log = self.engine.see_server(&self.servers[server as usize]).log;
        Some(format!("server {server}: log {}", text::numbers(log.entries())))
    }

    fn wanted(&mut self, server: u32, _: &[&str]) -> Option<String> {
        Some(match self.engine.wanted(&self.servers[server as usize]) {
            Ok(set) => format!("server {server} wants {}", text::set(&set)),
            Err(refusal) => refused(refusal),
        })
    }

    fn held(&mut self, server: u32, what: &[&str]) -> Option<String> {
        let t = number(what.first()?).filter(|t| *t < 64)?;
        let seen = self.engine.see_server(&self.servers[server as usize]);
        Some(format!("server {server} holds T{t}: {}", text::record(seen.record(t))))
    }

    fn counters(&mut self, server: u32, _: &[&str]) -> Option<String> {
        let seen = self.engine.see_server(&self.servers[server as usize]);
        let counted = seen.counters.iter().enumerate().filter(|(_, counter)| **counter != Counter::default());
        let said: Vec<String> =
            counted.map(|(key, counter)| format!("key {key} is {}", text::value(&counter.reading()))).collect();
        Some(format!("server {server}: {}", if said.is_empty() { "all are 0".to_string() } else { said.join(", ") }))
    }

    /// Gives a message the next name.
    fn name(&mut self, bytes: Vec<u8>, from: u32) -> String {
        let said = format!("m{}: {}", self.named.len() + 1, text::bytes(&bytes));
        self.named.push(Named { bytes, from });
        said
    }

    fn find(&self, name: &str) -> Option<&Named> {
        let place: usize = name.strip_prefix('m')?.parse().ok()?;
        self.named.get(place.checked_sub(1)?)
    }

    /// The station whose trunk keeps two others apart.
    fn broken_trunk(&self, a: u32, b: u32) -> Option<u32> {
        self.cut.iter().copied().find(|cut| a != b && (*cut == a || *cut == b))
    }
}

/// The number of `T8`.
fn number(word: &str) -> Option<u32> {
    word.strip_prefix('T')?.parse().ok()
}

fn refused(refusal: Refusal) -> String {
    format!("refused {}", refusal.number())
}

fn lost(station: u32) -> String {
    format!("lost at the trunk of station {station}")
}
