//! The cluster: shards, servers, transaction numbers, coordinators.

/// Shards 0 to 3.
pub const SHARDS: u32 = 4;
/// Three servers each.
pub const REPLICAS: u32 = 3;
/// Servers 0 to 11.
pub const SERVERS: u32 = SHARDS * REPLICAS;
/// Transaction numbers 0 to 63.
pub const NUMBERS: u32 = 64;
/// Coordinators 0 to 7.
pub const COORDINATORS: u32 = 8;

/// The shard of a server: server = 3 × shard + replica.
pub fn shard_of(server: u32) -> u32 {
    server / REPLICAS
}

/// The three servers of a shard.
pub fn servers_of(shard: u32) -> std::ops::Range<u32> {
    REPLICAS * shard..REPLICAS * (shard + 1)
}

/// The coordinator that begins a number.
pub fn origin(t: u32) -> u32 {
    t % COORDINATORS
}

/// The numbers in a word, rising.
pub fn numbers_in(word: u64) -> impl Iterator<Item = u32> {
    let mut rest = word;
    std::iter::from_fn(move || {
        if rest == 0 {
            return None;
        }
        let lowest = rest.trailing_zeros();
        rest &= rest - 1;
        Some(lowest)
    })
}

/// Whether a number, 0 to 63, is in a word.
pub fn has(word: u64, t: u32) -> bool {
    word >> t & 1 == 1
}

/// The word that holds one number, 0 to 63, alone.
pub fn only(t: u32) -> u64 {
    1 << t
}
