//! The parts that messages and states have in common, from text and to text.

use crate::words::{number, signed, Read, Words};
use engine::layout::{MaybeSet, MaybeVote, MaybeWord, Piece, Pieces, Set, Value, Values};

const KINDS: [&str; 3] = ["read", "put", "add"];

/// A word by the numbers in it: `{}`, `{1 8}`, `{0..7 9}`.
pub fn word(words: &mut Words) -> Read<u64> {
    let text = words.take()?;
    let inside = text.strip_prefix('{').and_then(|text| text.strip_suffix('}'));
    let inside = inside.ok_or(format!("a word as `{{1 8}}` is wanted where `{text}` stands"))?;
    inside.split_whitespace().try_fold(0, |word, range| {
        let (first, last) = range.split_once("..").unwrap_or((range, range));
        let (first, last) = (number(first)?, number(last)?);
        if first > last || last > 63 {
            return Err(format!("`{range}` is in no word"));
        }
        Ok((first..=last).fold(word, |word, t| word | 1 << t))
    })
}

/// Three or more numbers that follow each other are shown as `0..7`.
pub fn show_word(word: u64) -> String {
    let mut shown: Vec<String> = Vec::new();
    let mut t = 0;
    while t < 64 {
        let run = (word >> t).trailing_ones();
        match run {
            0 => t += 1,
            1 | 2 => shown.extend((t..t + run).map(|t| t.to_string())),
            _ => shown.push(format!("{t}..{}", t + run - 1)),
        }
        t += run;
    }
    format!("{{{}}}", shown.join(" "))
}

/// Four words, or `empty`.
pub fn set(words: &mut Words) -> Read<Set> {
    if words.eat("empty") {
        return Ok(Set::default());
    }
    Ok(Set { w0: word(words)?, w1: word(words)?, w2: word(words)?, w3: word(words)? })
}

pub fn show_set(set: &Set) -> String {
    if *set == Set::default() {
        return "empty".to_string();
    }
    [set.w0, set.w1, set.w2, set.w3].map(show_word).join(" ")
}

/// What may be missing: `none`.
pub fn maybe_word(words: &mut Words) -> Read<MaybeWord> {
    if words.eat("none") {
        return Ok(MaybeWord::default());
    }
    Ok(MaybeWord { some: 1, word: word(words)? })
}

pub fn show_maybe_word(held: &MaybeWord) -> String {
    shown_if(held.some, || show_word(held.word))
}

pub fn maybe_set(words: &mut Words) -> Read<MaybeSet> {
    if words.eat("none") {
        return Ok(MaybeSet::default());
    }
    Ok(MaybeSet { some: 1, set: set(words)? })
}

pub fn show_maybe_set(held: &MaybeSet) -> String {
    shown_if(held.some, || show_set(&held.set))
}

pub fn maybe_vote(words: &mut Words) -> Read<MaybeVote> {
    if words.eat("none") {
        return Ok(MaybeVote::default());
    }
    let set = set(words)?;
    Ok(MaybeVote { some: 1, ballot: words.number_after("at")?, set })
}

pub fn show_maybe_vote(held: &MaybeVote) -> String {
    shown_if(held.some, || format!("{} at {}", show_set(&held.set), held.ballot))
}

fn shown_if(some: u32, show: impl Fn() -> String) -> String {
    if some == 0 {
        "none".to_string()
    } else {
        show()
    }
}

/// Any number of `(0,3,put,5)`, up to eight; `of 9` before them says another count.
pub fn pieces(words: &mut Words) -> Read<Pieces> {
    let count = if words.eat("of") { Some(words.number()?) } else { None };
    let mut pieces = Pieces::default();
    let mut many = 0;
    while words.peek().starts_with('(') {
        let place = pieces.list.get_mut(many).ok_or("a list has places for eight pieces")?;
        *place = piece(words.take()?)?;
        many += 1;
    }
    if many == 0 {
        return Err("pieces are wanted, as `(0,3,put,5)`".to_string());
    }
    pieces.count = count.unwrap_or(many as u32);
    Ok(pieces)
}

fn piece(text: &str) -> Read<Piece> {
    let inside = text.strip_prefix('(').and_then(|text| text.strip_suffix(')')).unwrap_or("");
    let parts: Vec<&str> = inside.split(',').map(str::trim).collect();
    match parts[..] {
        [shard, key, named, operand] => {
            let kind = match KINDS.iter().position(|kind| *kind == named) {
                Some(kind) => kind as u32,
                None => number(named)?,
            };
            Ok(Piece { shard: number(shard)?, key: number(key)?, kind, operand: signed(operand)? })
        }
        _ => Err(format!("`{text}` is no piece")),
    }
}

/// The pieces up to the count, or `none`.
pub fn show_pieces(pieces: &Pieces) -> String {
    let show = |piece: &Piece| {
        let kind = KINDS.get(piece.kind as usize).map_or(piece.kind.to_string(), |kind| kind.to_string());
        format!("({},{},{kind},{})", piece.shard, piece.key, piece.operand)
    };
    match pieces.count {
        0 => "none".to_string(),
        count @ 1..=8 => pieces.list[..count as usize].iter().map(show).collect::<Vec<_>>().join(" "),
        count => format!("of {count} {}", pieces.list.iter().map(show).collect::<Vec<_>>().join(" ")),
    }
}

/// Results up to the end of the text, `5, 7 kept`; `of 9` before them says another count.
pub fn values(words: &mut Words) -> Read<Values> {
    let count = if words.eat("of") { Some(words.number()?) } else { None };
    let mut values = Values::default();
    let mut many = 0;
    for text in words.rest().split(',') {
        let place = values.list.get_mut(many).ok_or("a list has places for eight results")?;
        *place = value(text)?;
        many += 1;
    }
    values.count = count.unwrap_or(many as u32);
    Ok(values)
}

/// A result: `5` or `5 kept`.
pub fn value(text: &str) -> Read<Value> {
    let mut words = Words::of(text);
    let value = signed(words.take()?)?;
    let kept = words.eat("kept").into();
    words.end()?;
    Ok(Value { value, kept })
}

pub fn show_value(value: &Value) -> String {
    format!("{}{}", value.value, if value.kept == 0 { "" } else { " kept" })
}

/// The results up to the count, or the word for none of them.
pub fn show_values(values: &Values, none: &str) -> String {
    let show = |values: &[Value]| values.iter().map(show_value).collect::<Vec<_>>().join(", ");
    match values.count {
        0 => none.to_string(),
        count @ 1..=8 => show(&values.list[..count as usize]),
        count => format!("of {count} {}", show(&values.list)),
    }
}
