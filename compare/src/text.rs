//! Cases as text: lines for another tool, and one case for people.

use crate::case::{Case, Whole};
use crate::second::{Call, NONE};
use crate::sentence;

/// Call, row, output length, detail length, image.
pub fn question(case: &Case) -> String {
    let call = match case.call {
        Call::ProjectImpl => "P",
        Call::ExpectedSignatures => "S",
    };
    format!("{call} {} {} {} {}", case.row, case.output, case.detail, hex(&case.image))
}

/// A label, the question, then the five fields and the bytes written to output and detail.
pub fn line(label: &str, case: &Case, whole: &Whole) -> String {
    let a = &whole.answer;
    let five = format!("{} {} {} {} {}", a.number, a.function, a.second, a.length, a.visits);
    format!("{label} {} {five} {} {}", question(case), hex(&whole.output), hex(&whole.detail))
}

/// One case for people: the question, the image's sections and the answer.
pub fn readable(case: &Case, whole: &Whole) -> String {
    format!("{}{}{}", asked(case), image(&case.image), answered(case, whole))
}

/// The question without its image, for people.
pub fn asked(case: &Case) -> String {
    format!("{:?} of row {}, {} bytes of output, {} of detail\n", case.call, case.row, case.output, case.detail)
}

/// An image's length and sections, for people.
pub fn image(image: &[u8]) -> String {
    format!("image: {} bytes\n{}", image.len(), sections(image))
}

/// The answer, with the texts of its names and its sentence, for people.
pub fn answered(case: &Case, whole: &Whole) -> String {
    let (image, a) = (&case.image, &whole.answer);
    let name = |row: u32| match sentence::name(image, row) {
        Some(text) if row != NONE => format!("{row} '{}'", text.escape_debug()),
        _ => "none".into(),
    };
    let told = sentence::sentence(image, a, &whole.detail).map_or(String::new(), |(text, _)| text);
    let (number, function, second) = (a.number, name(a.function), name(a.second));
    let fields =
        format!("number {number}, function {function}, second {second}, length {}, visits {}", a.length, a.visits);
    let (output, detail) = (words(&whole.output), words(&whole.detail));
    format!("{fields}\noutput: {output}\ndetail: {detail}\n{}\n", told.escape_debug())
}

/// The sections by the trailer, as far as they make sense.
fn sections(image: &[u8]) -> String {
    let Some(trailer) = image.len().checked_sub(24) else {
        return String::new();
    };
    let start = |index: usize| u32::from_le_bytes(image[trailer + 4 * index..][..4].try_into().unwrap()) as usize;
    let places = [0, start(0), start(1), start(2), start(3), trailer];
    let part = |index: usize| image.get(places[index]..places[index + 1]).unwrap_or(&[]);
    let texts: String = part(0).iter().map(|byte| byte.escape_ascii().to_string()).collect();
    let named = ["names", "strings", "pool", "definitions"].iter().enumerate();
    let rest: String = named.map(|(index, label)| format!("  {label}: {}\n", words(part(index + 1)))).collect();
    format!("  texts: {texts}\n{rest}  trailer: {}\n", words(&image[trailer..]))
}

fn words(bytes: &[u8]) -> String {
    let word = |bytes: &[u8]| match u32::from_le_bytes(bytes.try_into().unwrap()) {
        NONE => "NONE".into(),
        word => word.to_string(),
    };
    bytes.chunks_exact(4).map(word).collect::<Vec<String>>().join(" ")
}

/// Bytes in hexadecimal, `-` for none.
pub fn hex(bytes: &[u8]) -> String {
    if bytes.is_empty() {
        return "-".into();
    }
    bytes.iter().map(|byte| format!("{byte:02x}")).collect()
}
