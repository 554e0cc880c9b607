//! The library's verdict on images, beside the second reading's and the loader's: what it says and how long it takes.

use std::collections::BTreeMap;
use std::fmt;
use std::time::Instant;

use crate::gen::{self, Source};
use crate::library::Verdict;
use crate::second;
use crate::text;

/// So many images are made, then each side is asked about all of them: only asking is timed.
const BATCH: usize = 256;

/// A side is asked so often, and its fastest time counts: a busy machine must not count.
const ROUNDS: usize = 3;

const SOURCES: [(Source, &str); 9] = [
    (Source::Edge, "edge"),
    (Source::Alike, "alike"),
    (Source::Rich, "rich"),
    (Source::Bound, "bound"),
    (Source::Deep, "deep"),
    (Source::Halves, "halves"),
    (Source::Utf8, "utf8"),
    (Source::Held, "held"),
    (Source::Damaged, "damaged"),
];

const SIDES: [&str; 3] = ["library", "second reading", "loader"];

/// The loader's verdict.
fn loads(image: &[u8]) -> bool {
    oracle::load(image).is_ok()
}

/// What is counted of images from one source.
#[derive(Clone, Copy, Default)]
struct Row {
    /// Unreadable and readable, as the second reading says.
    counts: [u64; 2],
    bytes: u64,
    /// Each side's time, in seconds.
    times: [f64; 3],
}

impl Row {
    fn and(mut self, other: &Row) -> Row {
        (0..2).for_each(|verdict| self.counts[verdict] += other.counts[verdict]);
        (0..3).for_each(|side| self.times[side] += other.times[side]);
        self.bytes += other.bytes;
        self
    }

    fn line(&self, label: &str) -> String {
        let [not, readable] = self.counts;
        let images = readable + not;
        let share = |sum: f64| sum / images.max(1) as f64;
        let [library, second, loader] = self.times.map(|time| share(time * 1e6));
        let bytes = share(self.bytes as f64);
        format!("{label:8}{readable:9}{not:12}{images:10}{bytes:9.0}{library:11.2}{second:16.2}{loader:9.2}\n")
    }
}

pub struct Verdicts {
    sides: [Verdict; 3],
    rows: BTreeMap<Source, Row>,
    /// By what the sides say: how often, and the smallest image.
    differences: BTreeMap<[bool; 3], (u64, Vec<u8>)>,
}

impl Verdicts {
    pub fn new(library: Verdict) -> Self {
        Verdicts { sides: [library, second::readable, loads], rows: BTreeMap::new(), differences: BTreeMap::new() }
    }

    /// Asks all sides about so many images from a seed.
    pub fn judge(&mut self, seed: u64, count: usize) {
        let mut images = gen::images(seed).take(count);
        loop {
            let mut batch: BTreeMap<Source, Vec<Vec<u8>>> = BTreeMap::new();
            for (source, image) in images.by_ref().take(BATCH) {
                batch.entry(source).or_default().push(image);
            }
            if batch.is_empty() {
                return;
            }
            for (source, images) in batch {
                self.ask(source, images);
            }
        }
    }

    fn ask(&mut self, source: Source, images: Vec<Vec<u8>>) {
        let row = self.rows.entry(source).or_default();
        let mut said = vec![[false; 3]; images.len()];
        for (side, verdict) in self.sides.iter().enumerate() {
            let fastest = (0..ROUNDS).map(|_| {
                let begun = Instant::now();
                for (image, said) in images.iter().zip(&mut said) {
                    said[side] = verdict(image);
                }
                begun.elapsed().as_secs_f64()
            });
            row.times[side] += fastest.fold(f64::INFINITY, f64::min);
        }
        for (image, said) in images.into_iter().zip(said) {
            row.counts[usize::from(said[1])] += 1;
            row.bytes += image.len() as u64;
            if said.iter().any(|verdict| *verdict != said[0]) {
                let (count, smallest) = self.differences.entry(said).or_insert_with(|| (0, image.clone()));
                *count += 1;
                if image.len() < smallest.len() {
                    *smallest = image;
                }
            }
        }
    }

    pub fn agree(&self) -> bool {
        self.differences.is_empty()
    }
}

impl fmt::Display for Verdicts {
    fn fmt(&self, f: &mut fmt::Formatter<'_>) -> fmt::Result {
        writeln!(f, "                                              mean   mean µs of the")?;
        writeln!(f, "source   readable  unreadable       all    bytes    library  second reading   loader")?;
        for (source, label) in SOURCES {
            f.write_str(&self.rows.get(&source).copied().unwrap_or_default().line(label))?;
        }
        let all = self.rows.values().fold(Row::default(), Row::and);
        f.write_str(&all.line("all"))?;
        let differ: u64 = self.differences.values().map(|(count, _)| count).sum();
        writeln!(f, "{} images, {differ} differences", all.counts[0] + all.counts[1])?;
        for (said, (count, image)) in &self.differences {
            let word = |verdict| if verdict { "readable" } else { "unreadable" };
            let each: Vec<String> =
                SIDES.iter().zip(said).map(|(side, verdict)| format!("{side}: {}", word(*verdict))).collect();
            writeln!(f, "DIFFERENCE, {count} times: {}\n  smallest: {}", each.join(", "), text::hex(image))?;
        }
        Ok(())
    }
}

#[cfg(test)]
mod tests {
    use super::*;

    #[test]
    fn two_readings_agree() {
        let mut verdicts = Verdicts::new(second::readable);
        verdicts.judge(5, 3_000);
        assert!(verdicts.agree(), "{verdicts}");
    }

    #[test]
    fn a_slip_is_found_with_its_smallest_image() {
        let mut verdicts = Verdicts::new(|image| image.len() != 24 && second::readable(image));
        verdicts.judge(5, 3_000);
        let smallest: Vec<usize> = verdicts.differences.values().map(|(_, image)| image.len()).collect();
        assert_eq!(smallest, [24]);
    }
}
