//! A text read word by word. A word ends at a space; what stands in braces or brackets is one word.

/// What was read, or why it can't be.
pub type Read<T> = Result<T, String>;

pub struct Words<'a> {
    rest: &'a str,
}

impl<'a> Words<'a> {
    pub fn of(text: &'a str) -> Words<'a> {
        Words { rest: text.trim() }
    }

    /// The next word, which stays; empty at the end.
    pub fn peek(&self) -> &'a str {
        let closing = match self.rest.chars().next() {
            Some('{') => self.rest.find('}').map(|place| place + 1),
            Some('(') => self.rest.find(')').map(|place| place + 1),
            _ => self.rest.find(char::is_whitespace),
        };
        &self.rest[..closing.unwrap_or(self.rest.len())]
    }

    /// The next word.
    pub fn take(&mut self) -> Read<&'a str> {
        let word = self.peek();
        if word.is_empty() {
            return Err("something is missing at the end".to_string());
        }
        self.rest = self.rest[word.len()..].trim_start();
        Ok(word)
    }

    /// Takes the next word if it is this one.
    pub fn eat(&mut self, word: &str) -> bool {
        let there = self.peek() == word;
        if there {
            self.rest = self.rest[word.len()..].trim_start();
        }
        there
    }

    pub fn expect(&mut self, word: &str) -> Read<()> {
        match (self.eat(word), self.rest) {
            (true, _) => Ok(()),
            (false, "") => Err(format!("`{word}` is missing at the end")),
            (false, rest) => Err(format!("`{word}` is wanted where `{rest}` stands")),
        }
    }

    pub fn number(&mut self) -> Read<u32> {
        number(self.take()?)
    }

    /// The number behind a word: `ballot 8`.
    pub fn number_after(&mut self, word: &str) -> Read<u32> {
        self.expect(word)?;
        self.number()
    }

    /// A number that is below a bound, to be a place.
    pub fn below(&mut self, bound: usize) -> Read<usize> {
        let place = self.number()? as usize;
        if place < bound {
            Ok(place)
        } else {
            Err(format!("there is no place {place}, only those below {bound}"))
        }
    }

    /// A transaction number: `T8`.
    pub fn t(&mut self) -> Read<u32> {
        let word = self.take()?;
        let digits = word.strip_prefix('T').ok_or(format!("a number as `T8` is wanted where `{word}` stands"))?;
        number(digits)
    }

    /// All that is left.
    pub fn rest(&mut self) -> &'a str {
        std::mem::take(&mut self.rest)
    }

    pub fn end(&self) -> Read<()> {
        match self.rest {
            "" => Ok(()),
            rest => Err(format!("`{rest}` is too much")),
        }
    }
}

pub fn number(word: &str) -> Read<u32> {
    digits(word)?.parse().map_err(|_| format!("`{word}` is above 32 bits"))
}

pub fn word_of_bits(word: &str) -> Read<u64> {
    digits(word)?.parse().map_err(|_| format!("`{word}` is above 64 bits"))
}

pub fn signed(word: &str) -> Read<i32> {
    digits(word.strip_prefix('-').unwrap_or(word))?;
    word.parse().map_err(|_| format!("`{word}` is not of 32 bits"))
}

fn digits(word: &str) -> Read<&str> {
    if !word.is_empty() && word.bytes().all(|digit| digit.is_ascii_digit()) {
        Ok(word)
    } else {
        Err(format!("`{word}` is no number"))
    }
}
