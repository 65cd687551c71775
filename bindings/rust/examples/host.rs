//! A host of six stations in memory: two shards, an engine that goes from one to the other, oil that does not fit its counter, and trunks
//! that drop.
//!
//! The disk is a few buffers here and the trunks are a list; the rest is what a host does. The duties are numbered as in docs/HOST.md:
//! S4 is the fourth of a server, D2 the second of a drive. examples/host.c is the same in C.

use drobulets::{servers_of, Drive, Message, Phase, Piece, Refusal, Server, Value};
use std::collections::BTreeMap;

const ENGINES: u32 = 0;
const HOURS: u32 = 1;
const OIL: u32 = 2;
const ALL: [u32; 6] = [0, 1, 2, 3, 4, 5];

#[derive(Default)]
struct Host {
    servers: Vec<Server>,
    /// What is on disk of each server, and of each coordinator's drive.
    disk_servers: BTreeMap<u32, Vec<u8>>,
    disk_drives: BTreeMap<u32, Vec<u8>>,
    /// The stations whose trunk is up.
    trunks: Vec<u32>,
}

// ---- the duties

impl Host {
    /// A message reaches a server, and the yard is told what it ran. Gives its reply, which goes to whoever asked (S5).
    fn ask(&mut self, s: u32, message: &[u8]) -> Result<Option<Vec<u8>>, Refusal> {
        if !self.trunks.contains(&s) {
            return Ok(None);
        }
        let server = &mut self.servers[s as usize];
        let reply = match server.take(message) {
            Ok(reply) => reply, // S2, S3
            Err(refusal) => return dropped(refusal).map(|()| None),
        };
        self.disk_servers.insert(s, server.to_bytes()); // S4
        if let Message::CommitOk { t, ran: ran @ 1.., .. } = Message::decode(&reply)? {
            println!("station {s}: committed T{t}, {ran} ran");
        }
        Ok(Some(reply))
    }

    /// Sends what is due (D4) and gives the drive every reply (D5). Gives the servers that have answered a Commit (D8).
    fn send(&mut self, drive: &mut Drive) -> Result<Vec<u32>, Refusal> {
        let mut told = Vec::new();
        self.disk_drives.insert(drive.coordinator(), drive.to_bytes()); // D2
        let due = drive.due()?;
        for s in due.servers {
            if let Some(reply) = self.ask(s, &due.bytes)? {
                match Message::decode(&reply) {
                    Ok(Message::CommitOk { server, .. }) => told.push(server),
                    _ => drive.take(&reply).or_else(dropped)?,
                }
            }
        }
        Ok(told)
    }

    /// Carries a number until it is decided, or until there are too few answers. A host with a clock would wait before D6 and D7.
    fn carry(&mut self, drive: &mut Drive) -> Result<(), Refusal> {
        let mut moved = true;
        while moved && drive.phase() != Phase::Commit {
            let phase = drive.phase();
            self.send(drive)?;
            moved = drive.phase() != phase || drive.move_on().is_ok(); // D6
            if !moved && drive.seen() > drive.ballot() {
                moved = drive.again().is_ok(); // D7
            }
        }
        Ok(())
    }

    /// Asks the servers of its shard whether a number is committed, and gives server s what they say (S7). Answers whether one knew.
    fn learn(&mut self, s: u32, shard: u32, t: u32) -> Result<bool, Refusal> {
        let question = Message::Inquire { t }.encode()?;
        for other in servers_of(shard).filter(|other| *other != s) {
            if let Some(answer) = self.ask(other, &question)? {
                if let Ok(Message::Done { .. }) = Message::decode(&answer) {
                    return Ok(self.ask(s, &answer)?.is_some());
                }
            }
        }
        Ok(false)
    }

    /// Learns all that a server wants (S7). Gives the numbers that nobody knew: a coordinator must recover them.
    fn learn_wanted(&mut self, s: u32) -> Result<Vec<u32>, Refusal> {
        let mut unknown = Vec::new();
        for (shard, t) in self.servers[s as usize].wanted()?.numbers() {
            if !self.learn(s, shard, t)? && !unknown.contains(&t) {
                unknown.push(t);
            }
        }
        Ok(unknown)
    }
}

/// What the table says of a refusal: 5, 6 and 13 stop the host, and what is refused by another is dropped.
fn dropped(refusal: Refusal) -> Result<(), Refusal> {
    match refusal {
        Refusal::OtherPieces | Refusal::OtherSet | Refusal::BadState => Err(refusal),
        _ => Ok(()),
    }
}

// ---- a figure

/// What a yard is shown of a counter. A full counter is no total: an add did not fit, and none was taken since. Only a sum above the range
/// leaves a value above 0, and only one below the range a value below 0.
fn figure(counter: Value) -> String {
    match counter {
        Value { value, kept: false } => value.to_string(),
        Value { value, .. } if value > 0 => format!("at least {value}"),
        Value { value, .. } => format!("at most {value}"),
    }
}

// ---- the day

fn main() -> Result<(), Refusal> {
    // D1: T8 is this exchange, T1 this delivery and T9 this reading of a tank, for the life of the cluster.
    let measured = Piece::put(0, OIL, 2_000_000_000);
    let exchange = [Piece::add(0, ENGINES, -1), measured, Piece::add(1, ENGINES, 1), Piece::put(1, HOURS, 1200)];
    let delivery = [Piece::add(0, ENGINES, 4), Piece::add(0, OIL, 1_000_000_000), Piece::add(1, ENGINES, 4)];
    let tank = [Piece::put(0, OIL, 2_100_000_000)];

    let mut host = Host::default();
    for s in ALL {
        let server = Server::fresh(s)?; // S1
        host.disk_servers.insert(s, server.to_bytes());
        host.servers.push(server);
    }

    {
        let mut first = Drive::start(0, 8, &exchange)?; // D3
        host.trunks = vec![0, 1, 3, 4];
        host.send(&mut first)?;
        first.move_on()?; // D6: two of three in each shard have answered
        host.trunks = vec![0, 3];
        host.send(&mut first)?;
        println!("T8: the Accept has reached stations 0 and 3 when coordinator 0 loses its power");
    } // nothing is left of the drive in memory

    host.trunks = vec![0, 1, 2, 3, 4];
    let mut second = Drive::start(1, 1, &delivery)?; // D3
    host.carry(&mut second)?;
    assert_eq!(second.phase(), Phase::Commit);
    assert_eq!(host.send(&mut second)?, host.trunks);
    assert_eq!(host.servers[0].log(), []);
    assert_eq!(host.learn_wanted(0)?, [8]);
    println!("T1: committed at five stations, where nothing ran: it waits for T8, which nobody has committed");

    let mut rescue = Drive::recover(2, 8, &exchange, 0)?; // D3, D1: with the pieces that it was started with
    host.carry(&mut rescue)?;
    println!("T8: coordinator 2 recovers it at ballot {}; the Commit reaches stations 0 and 3", rescue.ballot());
    host.trunks = vec![0, 3];
    assert_eq!(rescue.phase(), Phase::Commit);
    assert_eq!(host.send(&mut rescue)?, host.trunks);

    let mut first = Drive::from_bytes(&host.disk_drives[&0])?; // D2: the drive as it was when it last sent anything
    host.trunks = vec![1, 2, 4];
    host.carry(&mut first)?;
    assert_eq!((first.phase(), first.ballot()), (Phase::Prepare, 16)); // D7
    println!("T8: coordinator 0 is back, hears of ballot {} and goes on at {}", first.seen(), first.ballot());
    host.trunks = vec![0, 1, 2, 3, 4];
    host.carry(&mut first)?;
    assert_eq!(first.phase(), Phase::Commit);
    assert_eq!(host.send(&mut first)?, host.trunks);

    host.servers[2] = Server::from_bytes(&host.disk_servers[&2])?; // S4: it has forgotten nothing that it answered or ran
    assert_eq!(host.servers[2].run_all()?, 0); // S6
    println!("station 2 was without power, and is back from its disk");

    println!("station 5 is reached, and learns of T8 from another");
    host.trunks = ALL.to_vec();
    assert_eq!(host.send(&mut second)?, ALL); // D8
    assert_eq!(host.servers[5].log(), []);
    assert_eq!(host.learn_wanted(5)?, []);
    assert_eq!(host.send(&mut first)?, ALL); // D8: both drives are done

    let oil = Value { value: 2_000_000_000, kept: true };
    assert_eq!((host.servers[0].counter(OIL), host.servers[0].result(1, 1)), (Some(oil), Some(oil)));
    println!("T1: its oil did not fit: shard 0 shows {} ml until the tank is read", figure(oil));
    println!("T9: coordinator 1 puts what the tank holds, and the oil is counted again");
    let mut third = Drive::start(1, 9, &tank)?; // D3
    host.carry(&mut third)?;
    assert_eq!(third.phase(), Phase::Commit);
    assert_eq!(host.send(&mut third)?, [0, 1, 2]);

    for s in ALL {
        let fetched = host.ask(s, &Message::Fetch { t: 1 }.encode()?)?.expect("an answer"); // S8
        assert!(matches!(Message::decode(&fetched)?, Message::Results { .. }));
        show(&host.servers[s as usize]);
    }
    Ok(())
}

/// Prints a server's counters and log; they must be what every server of its shard has.
fn show(server: &Server) {
    let [engines, hours, oil] = [ENGINES, HOURS, OIL].map(|key| figure(server.counters()[key as usize]));
    let ran: Vec<String> = server.log().iter().map(|t| format!("T{t}")).collect();
    println!(
        "shard {}, station {}: {engines} engines, {hours} hours, {oil} ml of oil; ran {}",
        server.shard(),
        server.id(),
        ran.join(" ")
    );
    assert_eq!([engines, hours, oil], if server.shard() == 0 { ["3", "0", "2100000000"] } else { ["5", "1200", "0"] });
}
