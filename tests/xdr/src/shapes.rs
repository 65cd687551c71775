//! The shapes of the messages as a table, and the refusal of any bytes read off it: the number that document 01 gives, found without a decoder.

/// A part of a message.
pub enum Part {
    /// Four bytes of any value.
    Four,
    /// Eight bytes of any value.
    Eight,
    /// A boolean.
    Truth,
    /// A boolean, and the parts if it is true.
    Optional(&'static [Part]),
    /// A count of at most 8, and the parts so many times.
    Array(&'static [Part]),
}

use Part::{Array, Eight, Four, Optional, Truth};

const PIECES: Part = Array(&[Four, Four, Four, Four]);

/// What follows the code.
fn shape(code: u32) -> Option<&'static [Part]> {
    Some(match code {
        0 | 3 => &[Four, Four, PIECES],
        1 => &[Four, Four, PIECES, Eight, Eight, Eight, Eight],
        2 | 20 => &[Four, PIECES, Eight, Eight, Eight, Eight],
        4 | 5 => &[Four],
        16 => &[Four, Four, Four, Eight],
        17 | 18 => &[Four, Four, Four],
        19 => &[Four, Four, Four, Optional(&[Eight]), Optional(&[Four, Eight, Eight, Eight, Eight])],
        21 => &[Four, Four, Four, Four],
        22 => &[Four, Four],
        23 => &[Four, Four, Array(&[Four, Truth])],
        _ => return None,
    })
}

/// The number by which these bytes are refused, or 0.
pub fn refusal(bytes: &[u8]) -> u32 {
    let mut rest = bytes;
    match walk_message(&mut rest) {
        Err(number) => number,
        Ok(()) if rest.is_empty() => 0,
        Ok(()) => 11,
    }
}

fn walk_message(rest: &mut &[u8]) -> Result<(), u32> {
    let code = number(rest)?;
    walk(rest, shape(code).ok_or(12u32)?)
}

fn walk(rest: &mut &[u8], parts: &[Part]) -> Result<(), u32> {
    for part in parts {
        match part {
            Four => skip(rest, 4)?,
            Eight => skip(rest, 8)?,
            Truth => drop(at_most(rest, 1)?),
            Optional(inner) => {
                if at_most(rest, 1)? == 1 {
                    walk(rest, inner)?;
                }
            }
            Array(inner) => {
                for _ in 0..at_most(rest, 8)? {
                    walk(rest, inner)?;
                }
            }
        }
    }
    Ok(())
}

fn skip(rest: &mut &[u8], many: usize) -> Result<(), u32> {
    *rest = rest.get(many..).ok_or(10u32)?;
    Ok(())
}

fn number(rest: &mut &[u8]) -> Result<u32, u32> {
    let bytes = rest.get(..4).ok_or(10u32)?;
    let number = bytes.iter().fold(0, |high, low| high << 8 | u32::from(*low));
    skip(rest, 4)?;
    Ok(number)
}

fn at_most(rest: &mut &[u8], most: u32) -> Result<u32, u32> {
    let number = number(rest)?;
    if number > most {
        Err(12)
    } else {
        Ok(number)
    }
}
