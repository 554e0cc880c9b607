//! What the library's calls cost beside the Rust's own, on images that both accept: times, instructions, where they go.

mod callgrind;
mod counts;
mod figures;
mod passed;
mod plot;
mod profile;
mod ratios;
mod times;
mod trace;

use std::hint::black_box;

use oracle::Loaded;

use crate::gen;
use crate::library;
use crate::second::{Call, DETAIL_BYTES};
pub use counts::{count_here, counts, SUBCOMMAND as COUNT_HERE};
pub use figures::{from_csv, tables, to_csv, Figure};
pub use passed::{table as passed, WORD as PASSED};
pub use plot::plot;
pub use profile::profile;
pub use ratios::ratios;
pub use times::times;
pub use trace::{ask_here, SUBCOMMAND as ASK_HERE};

const TYPICAL: &str = "typical";

/// Typical images are about so long, and so many of each length; costly ones are as long as they can be within these.
const SIZES: [usize; 4] = [1_024, 4_096, 16_384, 64_000];
const LIMITS: [usize; 4] = [1_024, 4_096, 16_384, 65_536];
const IMAGES: usize = 8;

/// More than an accepted answer needs.
const OUTPUT: usize = 262_144;

/// The library from the image's bytes; the Rust with building its schema from the same bytes, and without.
const SIDES: usize = 3;

struct Asked {
    image: Vec<u8>,
    row: u32,
    loaded: Loaded,
}

impl Asked {
    fn new(image: Vec<u8>, row: u32) -> Self {
        let loaded = oracle::load(&image).unwrap_or_else(|_| panic!("an accepted image is loaded"));
        Asked { image, row, loaded }
    }
}

/// Images that are asked together.
struct Group {
    call: Call,
    kind: &'static str,
    asked: Vec<Asked>,
}

/// What is counted: by a seed what is measured in times too, or rows that are passed over.
fn named(word: &str, calls: &[Call]) -> Result<Vec<Group>, String> {
    match word {
        PASSED => Ok(passed::groups()),
        seed => Ok(groups(seed.parse().map_err(|_| "a seed is a number".to_string())?, calls)),
    }
}

/// Typical images of each size for each call, then costly ones of each kind for `project_impl`.
fn groups(seed: u64, calls: &[Call]) -> Vec<Group> {
    let mut groups = vec![];
    for call in calls {
        for size in SIZES {
            let images = gen::typical(seed, size, IMAGES).into_iter();
            let asked = images.map(|(image, row)| Asked::new(image, row)).collect();
            groups.push(Group { call: *call, kind: TYPICAL, asked });
        }
    }
    for (kind, make) in gen::COSTLY.into_iter().filter(|_| calls.contains(&Call::ProjectImpl)) {
        for image in LIMITS.into_iter().filter_map(|bytes| gen::costly(make, bytes)) {
            groups.push(Group { call: Call::ProjectImpl, kind, asked: vec![Asked::new(image, gen::COSTLY_ROW)] });
        }
    }
    groups
}

impl Group {
    fn bytes(&self) -> usize {
        self.asked.iter().map(|asked| asked.image.len()).sum::<usize>() / self.asked.len()
    }

    /// One side, once about each image.
    fn ask(&self, side: usize, output: &mut [u8], detail: &mut [u8]) {
        for asked in &self.asked {
            let accepted = match side {
                0 => library::number(self.call, &asked.image, asked.row, output, detail) == 0,
                1 => oracle::load(black_box(&asked.image)).is_ok_and(|loaded| self.accepts(&loaded, asked.row)),
                _ => self.accepts(&asked.loaded, asked.row),
            };
            assert!(black_box(accepted), "both accept");
        }
    }

    fn accepts(&self, loaded: &Loaded, row: u32) -> bool {
        let accepted = match self.call {
            Call::ProjectImpl => loaded.accepts_impl(row),
            Call::ExpectedSignatures => loaded.accepts_signatures(row),
        };
        accepted == Some(true)
    }
}

fn buffers() -> (Vec<u8>, Vec<u8>) {
    (vec![0; OUTPUT], vec![0; DETAIL_BYTES])
}
