//! Asks about the implementation in row 2 of samples/getgm.image, and prints what the words mean.

use std::error::Error;
use std::fs;

use fruscalitu::{run_length, Accepted, TypeId};

const SAMPLE: &str = concat!(env!("CARGO_MANIFEST_DIR"), "/../../samples/getgm.image");

/// Words that are still to be read, and the image that has their names. Nothing is read where an output ends early.
struct Reader<'a> {
    image: &'a [u8],
    words: &'a [u32],
}

impl<'a> Reader<'a> {
    fn word(&mut self) -> Option<u32> {
        self.take(1).map(|words| words[0])
    }

    fn take(&mut self, count: usize) -> Option<&'a [u32]> {
        let (taken, rest) = self.words.split_at_checked(count)?;
        self.words = rest;
        Some(taken)
    }

    fn name(&mut self) -> Option<String> {
        let row = self.word()?;
        Some(format!("{} (name {row})", text(self.image, row)?))
    }

    fn ty(&mut self) -> Option<String> {
        let run = self.take(run_length(self.words)?)?;
        Some(match run {
            [1] => "u8".to_string(),
            _ => format!("type {run:?}"),
        })
    }

    fn signature(&mut self) -> Option<()> {
        println!("  function {}", self.name()?);
        for _ in 0..self.word()? {
            println!("    takes {}: {}", self.name()?, self.ty()?);
        }
        match self.word()? {
            0 => println!("    returns nothing"),
            _ => println!("    returns {}", self.ty()?),
        }
        Some(())
    }
}

impl Reader<'_> {
    fn function(&mut self) -> Option<()> {
        self.signature()?;
        for _ in 0..self.word()? {
            match self.word()? {
                1 => println!("    let {}: {} = {}", self.name()?, self.ty()?, self.value()?),
                2 if self.word()? == 0 => println!("    return"),
                2 => println!("    return {}", self.value()?),
                3 => println!("    self.{} = {}", self.name()?, self.value()?),
                _ => return None,
            }
        }
        Some(())
    }

    /// A value and its type; operators by their numbers.
    fn value(&mut self) -> Option<String> {
        let ty = self.ty()?;
        let value = match self.word()? {
            0 => (self.bits()? as i64).to_string(),
            1 => self.bits()?.to_string(),
            2 => f64::from_bits(self.bits()?).to_string(),
            3 => (self.word()? == 1).to_string(),
            4 => format!("string {}", self.word()?),
            5 => self.name()?,
            6 => "self".to_string(),
            7 => format!("self.{}", self.name()?),
            10 => format!("operator {} of {} and {}", self.word()?, self.value()?, self.value()?),
            11 => format!("operator {} of {}", self.word()?, self.value()?),
            _ => return None,
        };
        Some(format!("({value}): {ty}"))
    }

    /// Two words, the low one first.
    fn bits(&mut self) -> Option<u64> {
        Some(u64::from(self.word()?) | u64::from(self.word()?) << 32)
    }
}

/// The text of a name: the image's trailer of six words tells where the name rows start, and a row where its text does.
fn text(image: &[u8], row: u32) -> Option<String> {
    let word = |at: usize| Some(u32::from_le_bytes(image.get(at..at + 4)?.try_into().ok()?) as usize);
    let at = word(image.len().checked_sub(24)?)? + 16 * row as usize;
    let (start, length) = (word(at)?, word(at + 4)?);
    String::from_utf8(image.get(start..start + length)?.to_vec()).ok()
}

fn print(image: &[u8], accepted: &Accepted, function: fn(&mut Reader) -> Option<()>) -> Option<()> {
    println!("  words {:?}, visits {}", accepted.words, accepted.visits);
    let mut reader = Reader { image, words: &accepted.words };
    for _ in 0..reader.word()? {
        function(&mut reader)?;
    }
    reader.words.is_empty().then_some(())
}

fn main() -> Result<(), Box<dyn Error>> {
    let image = fs::read(SAMPLE)?;
    let number = TypeId(2);

    println!("expected_signatures");
    print(&image, &fruscalitu::expected_signatures(&image, number)?, |words| words.signature())
        .ok_or("no signatures")?;

    {
        println!("project_impl");
        print(&image, &fruscalitu::project_impl(&image, number)?, |words| words.function()).ok_or("no functions")?;
    }
    Ok(())
}
