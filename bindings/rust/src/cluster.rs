//! The limits of the cluster, and who is where in it.

use std::ops::Range;

/// Shards 0 to 3.
pub const SHARDS: u32 = 4;
/// Servers of a shard.
pub const REPLICAS: u32 = 3;
/// Servers 0 to 11; server = 3 × shard + replica.
pub const SERVERS: u32 = SHARDS * REPLICAS;
/// Transaction numbers 0 to 63, for the life of the cluster.
pub const NUMBERS: u32 = 64;
/// Coordinators 0 to 7.
pub const COORDINATORS: u32 = 8;
/// Counters of a shard, keys 0 to 15.
pub const KEYS: u32 = 16;
/// Most pieces of a transaction, and most results of one.
pub const PIECES: usize = 8;
/// Bytes of the longest message.
pub const LONGEST: usize = 176;
/// Bytes of stack that are enough for every call.
pub const STACK: usize = 8192;

/// The shard of a server.
pub const fn shard_of(server: u32) -> u32 {
    server / REPLICAS
}

/// The three servers of a shard.
pub const fn servers_of(shard: u32) -> Range<u32> {
    REPLICAS * shard..REPLICAS * (shard + 1)
}

/// The coordinator that starts a number.
pub const fn origin(t: u32) -> u32 {
    t % COORDINATORS
}

/// The servers that a mask names, bit s for server s, rising.
///
/// ```
/// assert_eq!(drobulets::servers_in(0b111_000).collect::<Vec<u32>>(), [3, 4, 5]);
/// ```
pub fn servers_in(mask: u32) -> impl Iterator<Item = u32> {
    numbers_in(mask.into())
}

/// The numbers in a word of a set, rising.
///
/// ```
/// assert_eq!(drobulets::numbers_in(258).collect::<Vec<u32>>(), [1, 8]);
/// ```
pub fn numbers_in(word: u64) -> impl Iterator<Item = u32> {
    (0..u64::BITS).filter(move |t| word >> t & 1 == 1)
}
