//! How rough a storm is.

use chance::Chance;

/// Weights of what may happen next, and chances of a hundred.
pub struct Weather {
    pub steps: u32,
    pub deliver: u32,
    pub send: u32,
    pub move_on: u32,
    pub again: u32,
    pub recover: u32,
    pub vanish: u32,
    pub run: u32,
    pub inquire: u32,
    pub begin: u32,
    /// Of a hundred things delivered, so many stay on their way as well.
    pub repeat: u32,
    /// Of a hundred messages, so many are lost.
    pub loss: u32,
    /// Of a hundred Commits, so many are lost. A number of which nobody has heard that it is committed stays in dispute.
    pub hush: u32,
    /// Of a hundred replies, so many are followed by "move on".
    pub eager: u32,
}

impl Weather {
    pub fn by_chance(chance: &mut Chance) -> Weather {
        Weather {
            steps: chance.between(60, 900),
            deliver: chance.between(50, 90),
            send: chance.between(6, 16),
            move_on: chance.between(1, 12),
            again: chance.below(4),
            recover: chance.below(6),
            vanish: chance.below(3),
            run: chance.between(2, 8),
            inquire: chance.below(4),
            begin: chance.between(1, 6),
            repeat: chance.pick(&[0, 5, 20, 60]),
            loss: chance.pick(&[5, 30, 60]),
            hush: chance.pick(&[0, 60, 97]),
            eager: chance.pick(&[0, 50, 100]),
        }
    }
}
