//! What the day must have come to.

use crate::words::SPARES;
use engine::text;
use model::cluster::{servers_of, SHARDS};
use model::{Pieces, Server};
use std::collections::BTreeMap;

/// What is wrong with the end of a day, if anything: a number that has not run where it must, stations of a shard that count differently, spares that came from nowhere or are gone.
pub fn outcome(servers: &[Server], transactions: &BTreeMap<u32, Pieces>) -> Option<String> {
    let unrun = transactions.iter().find_map(|(t, pieces)| {
        let mut addressed = pieces.shards().flat_map(servers_of);
        let late = addressed.find(|server| !servers[*server as usize].log.entries().contains(t))?;
        Some(format!("T{t} has not run at station {late}"))
    });
    let different =
        (0..SHARDS).find(|shard| !alike(servers, *shard)).map(|shard| format!("shard {shard} counts differently"));
    let lost = (0..SPARES.len()).find_map(|key| {
        let counted: i32 = (0..SHARDS).map(|shard| servers[servers_of(shard).start as usize].counters[key].value).sum();
        let all = transactions.values().flat_map(|pieces| pieces.entries()).filter(|piece| piece.key as usize == key);
        let delivered: i32 = all.map(|piece| piece.operand).sum();
        (counted != delivered).then(|| format!("{delivered} {} were delivered, and {counted} are counted", SPARES[key]))
    });
    unrun.or(different).or(lost)
}

/// Whether the three stations of a shard count the same, up to what is full.
fn alike(servers: &[Server], shard: u32) -> bool {
    let first = &servers[servers_of(shard).start as usize];
    servers_of(shard).all(|server| servers[server as usize].counters == first.counters)
}

/// A line for each station: what it counts and how much it ran.
pub fn table(servers: &[Server]) -> Vec<String> {
    let mut lines =
        vec![format!("{:22}{:>9}{:>9}{:>9}{:>7}", "At the end of the day", SPARES[0], SPARES[1], SPARES[2], "ran")];
    for server in servers {
        let [pumps, valves, filters] = [0, 1, 2].map(|key| text::value(&server.counters[key].reading()));
        let place = format!("shard {}, station {}", server.shard(), server.id);
        let third = server.id + 1 == servers_of(server.shard()).end;
        let same = match (third, alike(servers, server.shard())) {
            (false, _) => "",
            (true, true) => "   the same at all three",
            (true, false) => "   NOT THE SAME",
        };
        lines.push(format!("{place:22}{pumps:>9}{valves:>9}{filters:>9}{:>7}{same}", server.log.count));
    }
    lines
}

#[cfg(test)]
mod tests {
    use super::{outcome, table};
    use model::pieces::ADD;
    use model::{server, Message, Piece, Pieces, Server, Set};
    use std::collections::BTreeMap;

    /// Twelve servers after one exchange between shards 0 and 1.
    fn good_day() -> (Vec<Server>, BTreeMap<u32, Pieces>) {
        let piece = |shard, operand| Piece { shard, key: 1, kind: ADD, operand };
        let pieces = Pieces::of(&[piece(0, -5), piece(1, 5)]);
        let mut servers: Vec<Server> = (0..12).map(|id| Server::fresh(id).unwrap()).collect();
        for s in &mut servers[..6] {
            server::step(s, &Message::Commit { t: 8, pieces, set: Set::EMPTY }).unwrap();
        }
        (servers, BTreeMap::from([(8, pieces)]))
    }

    #[test]
    fn a_good_day_is_one() {
        let (servers, transactions) = good_day();
        assert_eq!(outcome(&servers, &transactions), None);
        assert!(table(&servers)[3].ends_with("the same at all three"));
    }

    #[test]
    fn a_station_that_counts_otherwise_is_seen() {
        let (mut servers, transactions) = good_day();
        servers[4].counters[2].value = 1;
        assert_eq!(outcome(&servers, &transactions), Some("shard 1 counts differently".to_string()));
        assert!(table(&servers)[6].ends_with("NOT THE SAME"));
    }

    #[test]
    fn a_station_that_is_full_alone_is_seen() {
        let (mut servers, transactions) = good_day();
        servers[5].counters[1].full = true;
        assert_eq!(outcome(&servers, &transactions), Some("shard 1 counts differently".to_string()));
        assert!(table(&servers)[6].contains("5 kept") && table(&servers)[6].ends_with("NOT THE SAME"));
    }

    #[test]
    fn a_number_that_has_not_run_is_seen() {
        let (mut servers, transactions) = good_day();
        servers[2] = Server::fresh(2).unwrap();
        assert_eq!(outcome(&servers, &transactions), Some("T8 has not run at station 2".to_string()));
    }

    #[test]
    fn spares_that_are_gone_are_seen() {
        let (mut servers, transactions) = good_day();
        servers[..3].iter_mut().for_each(|server| server.counters[1].value -= 1);
        assert_eq!(outcome(&servers, &transactions), Some("0 valves were delivered, and -1 are counted".to_string()));
    }
}
