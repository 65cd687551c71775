//! Values at which rules begin and end, and pieces, sets and messages made of them.

use chance::Chance;
use engine::layout::{Numbers, Place};
use model::{Piece, Pieces, Set};

/// The transaction numbers that most messages are about.
pub const FEW: [u32; 6] = [0, 1, 8, 9, 17, 63];

const EDGES: [u32; 22] =
    [0, 1, 2, 3, 4, 7, 8, 9, 11, 12, 15, 16, 24, 63, 64, 65, 65_527, 65_535, 65_536, 1 << 31, u32::MAX - 1, u32::MAX];

pub fn edge(chance: &mut Chance) -> u32 {
    if chance.percent(5) {
        chance.word() as u32
    } else {
        chance.pick(&EDGES)
    }
}

/// A transaction number, now and then one that isn't.
pub fn number(chance: &mut Chance) -> u32 {
    match chance.below(20) {
        0 => edge(chance),
        1..=3 => chance.below(64),
        _ => chance.pick(&FEW),
    }
}

/// A ballot near those that are in use, now and then one that is never valid.
pub fn ballot(chance: &mut Chance) -> u32 {
    match chance.below(20) {
        0 => edge(chance),
        1 => 65_528 + chance.below(8),
        _ => chance.pick(&[0, 0, 8, 9, 11, 16, 24]),
    }
}

pub fn word(chance: &mut Chance) -> u64 {
    match chance.below(8) {
        0 => chance.word(),
        1 => u64::MAX,
        2 => 1 << chance.below(64),
        3 | 4 => FEW.iter().filter(|_| chance.percent(40)).fold(0, |word, t| word | 1u64 << t),
        _ => 0,
    }
}

/// A value a few steps from an end of the range, or now and then any.
pub fn near_an_end(chance: &mut Chance) -> i32 {
    let steps = chance.below(8) as i32;
    match chance.below(10) {
        0 => edge(chance) as i32,
        1..=5 => i32::MAX - steps,
        _ => i32::MIN + steps,
    }
}

/// What the numbers put and add: to the ends of the range, over them and back.
const OPERANDS: [i32; 6] = [i32::MAX - 2, 5, 5, -5, i32::MIN + 2, i32::MIN];

/// The pieces that a transaction number has in most messages: always good ones.
pub fn usual_pieces(t: u32) -> Pieces {
    let operand = |kind: u32| if kind == 0 { 0 } else { OPERANDS[t as usize % OPERANDS.len()] };
    let piece = |shard: u32, key: u32, kind: u32| Piece { shard, key, kind, operand: operand(kind) };
    let both = [piece(0, 3, 1 + t % 2), piece(1, 0, t % 3)];
    match t % 4 {
        0 => Pieces::of(&both),
        1 => Pieces::of(&both[..1]),
        2 => Pieces::of(&both[1..]),
        _ => Pieces::of(&[piece(0, 3, t % 3), piece(0, 5, 2), piece(2, 15, 1), piece(3, 0, 2)]),
    }
}

/// The usual pieces, now and then others or bad ones.
pub fn pieces(chance: &mut Chance, t: u32) -> Pieces {
    let mut pieces = usual_pieces(t);
    match chance.below(32) {
        0 => change_one(chance, &mut pieces),
        3 => pieces.count = edge(chance),
        1 => pieces = usual_pieces(t.wrapping_add(chance.below(4))),
        2 => {
            let full: Vec<Piece> = (0..8).map(|n| Piece { shard: n / 2, key: n, kind: 2, operand: i32::MAX }).collect();
            pieces = Pieces::of(&full);
        }
        _ => {}
    }
    pieces
}

/// Changes one number of the pieces.
fn change_one(chance: &mut Chance, pieces: &mut Pieces) {
    let mut image = engine::image::pieces_image(pieces);
    damage(chance, &mut image, 1);
    *pieces = engine::image::pieces(&image);
}

/// A set that suits its number in most cases, and names few others.
pub fn set(chance: &mut Chance, t: u32, pieces: &Pieces) -> Set {
    let own = if t < 64 { 1u64 << t } else { 0 };
    let mut set = Set::EMPTY;
    for shard in (0..4).filter(|shard| pieces.touch(*shard)) {
        let few = FEW[..5].iter().filter(|_| chance.percent(30)).fold(0, |word, t| word | 1u64 << t);
        let word = if chance.percent(90) { few } else { word(chance) };
        set = set.with(shard, word & !own);
    }
    if chance.percent(4) {
        set = set.with(chance.below(4), word(chance) | own);
    }
    set
}

/// Changes so many numbers of a state.
pub fn damage(chance: &mut Chance, state: &mut impl Numbers, times: u32) {
    let many = state.many();
    for _ in 0..times {
        let chosen = chance.below(many);
        let mut place = 0;
        state.visit(&mut |number| {
            if place == chosen {
                put_something(chance, number);
            }
            place += 1;
        });
    }
}

/// Puts something into every number of a state.
pub fn fill(chance: &mut Chance, state: &mut impl Numbers) {
    state.visit(&mut |number| put_something(chance, number));
}

fn put_something(chance: &mut Chance, place: Place) {
    match place {
        Place::Number(number) => *number = edge(chance),
        Place::Signed(number) => *number = edge(chance) as i32,
        Place::Word(number) => *number = word(chance),
    }
}
