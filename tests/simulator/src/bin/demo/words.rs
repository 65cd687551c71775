//! The day in plain words.

use model::pieces::Pieces;
use model::Message;
use simulator::day::KINDS;
use simulator::net::{Time, Trunk, HOUR, MINUTE, SECOND};
use simulator::news::Inside;
use simulator::tally::Tally;

/// What the counters of a shard count, by key.
pub const SPARES: [&str; KINDS as usize] = ["pumps", "valves", "filters"];

pub fn clock(time: Time) -> String {
    format!("{:02}:{:02}:{:02}", time / HOUR, time / MINUTE % 60, time / SECOND % 60)
}

/// How long something took, if it is worth saying.
pub fn duration(time: Time) -> String {
    match (time / HOUR, time / MINUTE % 60) {
        (0, 0) => String::new(),
        (0, minutes) => format!(", {minutes} min after it began"),
        (hours, minutes) => format!(", {hours} h {minutes} min after it began"),
    }
}

pub fn list(stations: &[u32]) -> String {
    let mut stations = stations.to_vec();
    stations.sort_unstable();
    stations.dedup();
    let all: Vec<String> = stations.iter().map(u32::to_string).collect();
    match all.split_last() {
        Some((last, [])) => format!("station {last}"),
        Some((last, others)) => format!("stations {} and {last}", others.join(", ")),
        None => "no station".to_string(),
    }
}

/// What a number does: spares that go from one shard to another, or come from outside.
pub fn work(pieces: &Pieces) -> String {
    let named = |key: u32| SPARES[key as usize];
    match pieces.entries() {
        [a, b] if a.operand == -b.operand => {
            let (from, to) = if a.operand < 0 { (a, b) } else { (b, a) };
            format!("{} {} go from shard {} to shard {}", to.operand, named(to.key), from.shard, to.shard)
        }
        all => {
            let shards: Vec<String> = pieces.shards().map(|shard| shard.to_string()).collect();
            format!("{} of every kind are delivered to shards {}", all[0].operand, shards.join(" and "))
        }
    }
}

/// Where a message of a drive was cut.
pub fn cut(trunks: &[Trunk], message: &Message, inside: &Inside) -> String {
    let name = match message {
        Message::Commit { .. } => "Commit",
        Message::Accept { .. } => "Accept",
        Message::Prepare { .. } => "Prepare",
        _ => "PreAccept",
    };
    let missed: Vec<u32> = inside.missed.iter().copied().filter(|s| !inside.reached.contains(s)).collect();
    let trunk = if trunks.len() == 1 { "a trunk is" } else { "trunks are" };
    format!(
        "{trunk} cut half-way: the {name} of T{} has reached {}, and not {}",
        message.t(),
        list(&inside.reached),
        list(&missed)
    )
}

/// What a station said to a Commit: how many ran, and which if there are several.
pub fn committed(server: u32, t: u32, ran: &[u32]) -> String {
    let numbers: String = ran.iter().map(|t| format!(" T{t}")).collect();
    let which = if ran.is_empty() { ", it waits" } else { ":" };
    format!("station {server}: T{t} committed, {} ran{which}{numbers}", ran.len())
}

pub fn tally(tally: &Tally) -> String {
    let Tally { taken, heard, lost, repeated, cuts, downs, recovered, ran_none, ran_one, ran_more, .. } = tally;
    [
        format!("{taken} messages to stations and {heard} replies to drives; {lost} lost, {repeated} repeated."),
        format!("Commits taken: {ran_none} ran nothing, {ran_one} one number, {ran_more} more."),
        format!("Trunks cut inside an exchange: {cuts}. Stations down for hours: {downs}. Recoveries: {recovered}."),
    ]
    .join("\n")
}
