//! Reads a pool's words from a start, one behind the other, never past a limit.

use smol_str::SmolStr;

/// Why an image is unreadable, for people.
pub type Unreadable = &'static str;
pub type Read<T> = Result<T, Unreadable>;

/// The image's rows that pool words refer to.
pub struct Tables {
    pub names: Vec<SmolStr>,
    pub strings: Vec<String>,
    pub pool: Vec<u32>,
}

pub struct Cursor<'a> {
    tables: &'a Tables,
    at: usize,
    limit: usize,
}

impl<'a> Cursor<'a> {
    pub fn new(tables: &'a Tables, start: u32) -> Self {
        Cursor { tables, at: start as usize, limit: tables.pool.len() }
    }

    pub fn word(&mut self) -> Read<u32> {
        if self.at >= self.limit {
            return Err("a read leaves its section or its run is too long");
        }
        self.at += 1;
        Ok(self.tables.pool[self.at - 1])
    }

    /// A word under a bound: a flag, a code, a count.
    pub fn below(&mut self, bound: u32) -> Read<u32> {
        let word = self.word()?;
        if word < bound {
            Ok(word)
        } else {
            Err("a code, flag or count is out of its range")
        }
    }

    pub fn flag(&mut self) -> Read<bool> {
        Ok(self.below(2)? == 1)
    }

    /// Two words, low first.
    pub fn long(&mut self) -> Read<u64> {
        let low = self.word()?;
        Ok(u64::from(low) | u64::from(self.word()?) << 32)
    }

    pub fn name(&mut self) -> Read<SmolStr> {
        let row = self.word()?;
        self.tables.names.get(row as usize).cloned().ok_or("no such name row")
    }

    /// A string's row goes before its text, so that the row comes back out of the Rust: texts may be equal.
    pub fn string(&mut self) -> Read<String> {
        let row = self.word()?;
        let text = self.tables.strings.get(row as usize).ok_or("no such string row")?;
        Ok(format!("{row}:{text}"))
    }

    /// A count up to a bound, then as many items.
    pub fn list<T>(&mut self, most: u32, mut item: impl FnMut(&mut Self) -> Read<T>) -> Read<Vec<T>> {
        (0..self.below(most + 1)?).map(|_| item(self)).collect()
    }

    /// Something that may take so many words and no more.
    pub fn within<T>(&mut self, words: usize, item: impl FnOnce(&mut Self) -> Read<T>) -> Read<T> {
        let limit = self.limit;
        self.limit = limit.min(self.at + words);
        let result = item(self);
        self.limit = limit;
        result
    }
}
