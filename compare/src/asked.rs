//! An image from a file, asked as the programs projone and sigone ask: its lowest implementation, with their buffers.

use std::rc::Rc;

use crate::case::{Case, Whole};
use crate::second::{self, Call, DETAIL_BYTES};

/// Bytes of output that the programs lend.
const OUTPUT_BYTES: usize = 65_536;

/// The program that prints a call's answer.
pub fn program(call: Call) -> &'static str {
    match call {
        Call::ProjectImpl => "projone",
        Call::ExpectedSignatures => "sigone",
    }
}

/// The question; the row is the lowest implementation's where none is given.
pub fn case(call: Call, image: &Rc<[u8]>, row: Option<u32>) -> Case {
    let row = row.unwrap_or_else(|| second::lowest_implementation(image));
    Case { call, image: image.clone(), row, output: OUTPUT_BYTES, detail: DETAIL_BYTES }
}

/// What the program prints: the five fields on a line, then on acceptance each output word on a line.
pub fn lines(whole: &Whole) -> String {
    let a = &whole.answer;
    let five = format!("{} {} {} {} {}\n", a.number, a.function, a.second, a.length, a.visits);
    let words = whole.output.chunks_exact(4).map(|word| u32::from_le_bytes(word.try_into().unwrap()));
    five + &words.map(|word| format!("{word}\n")).collect::<String>()
}

#[cfg(test)]
mod tests {
    use std::path::{Path, PathBuf};

    use super::*;
    use crate::judge::{By, Judge};

    const SAMPLES: &str = concat!(env!("CARGO_MANIFEST_DIR"), "/../samples");

    fn images() -> Vec<PathBuf> {
        let entries = std::fs::read_dir(SAMPLES).unwrap().map(|entry| entry.unwrap().path());
        entries.filter(|path| path.extension().is_some_and(|end| end == "image")).collect()
    }

    fn asked(path: &Path, call: Call) -> Whole {
        let judged = Judge::default().judge(&case(call, &std::fs::read(path).unwrap().into(), None)).ok().unwrap();
        assert!(judged.by == By::Rust, "{}", path.display());
        judged.whole
    }

    #[test]
    fn samples_print_what_their_files_say() {
        let images = images();
        assert!(images.len() >= 3);
        for path in &images {
            for (call, end) in [(Call::ProjectImpl, "lines"), (Call::ExpectedSignatures, "signatures")] {
                let said = std::fs::read_to_string(path.with_extension(end)).unwrap();
                assert_eq!(lines(&asked(path, call)), said, "{} {end}", path.display());
            }
        }
    }

    #[test]
    fn the_lowest_implementation_is_asked() {
        let row = |image: Rc<[u8]>| case(Call::ProjectImpl, &image, None).row;
        assert_eq!(row(crate::gen::whole_case().into()), 2);
        // Unreadable, and readable without definitions.
        let words = [0, 0, 0, 0, 1, 24u32];
        let empty: Vec<u8> = words.iter().flat_map(|word| word.to_le_bytes()).collect();
        assert_eq!((row(vec![].into()), row(empty.into())), (0, 0));
    }
}
