//! After the faults: all trunks are up and nothing is lost. Every number that was begun is driven to its end, every server learns what it wants, and all of it has run; then every server is started up anew.

use crate::checks::{Check, Fault};
use crate::cluster::Cluster;
use engine::Engine;
use model::cluster::{numbers_in, origin, servers_of, SERVERS, SHARDS};
use model::{codec, Message, Values};

/// More ballots or questions than a calm cluster needs.
const ENOUGH: u32 = 40;

pub fn calm_down<E: Engine>(cluster: &mut Cluster<E>) {
    cluster.story.tell(|| "all trunks are up, and every drive but one at a time is silent".to_string());
    for slot in cluster.live() {
        cluster.finish(slot);
    }
    let begun: Vec<u32> = cluster.transactions().keys().copied().collect();
    for t in &begun {
        drive_to_its_end(cluster, *t);
    }
    (0..SERVERS).for_each(|server| catch_up(cluster, server));
    all_ran(cluster, &begun);
    for t in &begun {
        fetched_alike(cluster, *t);
    }
    (0..SERVERS).for_each(|server| cluster.run(server, server % 2 == 0));
}

/// The origin recovers a number and goes on until its Commit is taken by every server of its shards.
fn drive_to_its_end<E: Engine>(cluster: &mut Cluster<E>, t: u32) {
    let slot = cluster.recover(origin(t), t, 0);
    for _ in 0..ENOUGH {
        if cluster.fault.is_some() {
            return;
        }
        let (message, servers) = match cluster.due(slot) {
            Some(sending) => sending,
            None => return,
        };
        let answers: Vec<Vec<u8>> = servers.iter().filter_map(|server| cluster.take(*server, &message)).collect();
        if let Ok(Message::Commit { .. }) = codec::decode(&message) {
            cluster.finish(slot);
            return;
        }
        for answer in &answers {
            cluster.hear(slot, answer);
        }
        let unchanged = cluster.due(slot).map_or(false, |(next, _)| next == message);
        if unchanged {
            cluster.again(slot);
        }
    }
    cluster.blame(Some(stands_still(t, "it isn't committed")));
}

/// A server asks for what it wants until it wants nothing.
fn catch_up<E: Engine>(cluster: &mut Cluster<E>, server: u32) {
    for _ in 0..ENOUGH {
        let wanted = cluster.wanted(server);
        if wanted.all() == 0 {
            return;
        }
        for shard in 0..SHARDS {
            for t in numbers_in(wanted.word(shard)) {
                inquire(cluster, server, shard, t);
            }
        }
    }
}

fn inquire<E: Engine>(cluster: &mut Cluster<E>, server: u32, shard: u32, t: u32) {
    let question = codec::bytes_of(&Message::Inquire { t }).expect("an Inquire encodes");
    for asked in servers_of(shard) {
        let answer = cluster.take(asked, &question);
        if let Some(done) = answer.filter(|answer| matches!(codec::decode(answer), Ok(Message::Done { .. }))) {
            cluster.take(server, &done);
            return;
        }
    }
}

fn all_ran<E: Engine>(cluster: &mut Cluster<E>, begun: &[u32]) {
    let servers = cluster.see();
    let unrun = begun.iter().find_map(|t| {
        let shards: Vec<u32> = cluster.pieces(*t).shards().collect();
        let mut addressed = shards.into_iter().flat_map(servers_of);
        let late = addressed.find(|server| !servers[*server as usize].log.entries().contains(t))?;
        Some(stands_still(*t, &format!("it hasn't run at server {late}")))
    });
    cluster.blame(unrun);
}

/// The servers of a shard answer a Fetch with the same results.
fn fetched_alike<E: Engine>(cluster: &mut Cluster<E>, t: u32) {
    let question = codec::bytes_of(&Message::Fetch { t }).expect("a Fetch encodes");
    let shards: Vec<u32> = cluster.pieces(t).shards().collect();
    for shard in shards {
        let answers: Vec<Option<Values>> = servers_of(shard)
            .map(|server| match codec::decode(&cluster.take(server, &question)?) {
                Ok(Message::Results { values, .. }) => Some(values),
                _ => None,
            })
            .collect();
        if answers[0].is_none() || answers.iter().any(|answer| *answer != answers[0]) {
            let what = format!("the servers of shard {shard} answer a Fetch of T{t} differently");
            cluster.blame(Some(Fault { check: Check::EqualResults, what }));
        }
    }
}

fn stands_still(t: u32, what: &str) -> Fault {
    Fault { check: Check::Progress, what: format!("T{t} stands still: {what}") }
}
