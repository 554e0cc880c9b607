//! Chosen cases with their whole answers: a balanced sample for another tool, and the stored vectors.

use std::collections::BTreeMap;
use std::rc::Rc;

use crate::case::{Case, Whole};
use crate::gen::{self, Cases, Edge};
use crate::judge::Judge;
use crate::second::{Call, DETAIL_BYTES};

pub type Sample = Vec<(String, Case, Whole)>;

/// Edges whose answer is stored with every length around its boundaries.
const AT_EVERY_LENGTH: [&str; 5] = ["whole-case", "visits-1024", "map-visits-6", "functions-order", "true-equals-p"];

/// Edges that depend on the trait alone are asked for their signatures too.
const ASKED_TWICE: [&str; 13] = [
    "visits-",
    "words-",
    "dropped-",
    "cyclic-",
    "alias-",
    "map-",
    "qualified-",
    "return-",
    "trait-",
    "target-",
    "row-",
    "type-parameter-",
    "lone-trait-",
];

const ONCE: &[Call] = &[Call::ProjectImpl];
const SIGNATURES: &[Call] = &[Call::ExpectedSignatures];
const TWICE: &[Call] = &[Call::ProjectImpl, Call::ExpectedSignatures];

/// Edges that are stored behind all else, by how their labels start: what needs the most stack, then qualified names, then texts,
/// then held types.
const BEHIND: [&str; 4] = ["stack-", HALVES, UTF8, HELD];
const HALVES: &str = "halves-";
const UTF8: &str = "utf8-";
const HELD: &str = "held-";

/// Of the edges of texts, those that are asked for their signatures too, and the one that is also asked with too short a detail.
const TEXTS_ASKED_TWICE: [&str; 3] = ["utf8-bad-unused-name", "utf8-bad-unused-string", "utf8-good-qualified"];
const SHORT_DETAIL: &str = "utf8-bad-unused-string";

/// Of the edges of held types, those that the trait decides: they are asked for by one call or the other, by turns.
const BY_TURNS: [&str; 3] = ["held-poison-", "held-clean-", "held-65-"];

/// Of the edges that need the most stack those that were reported, the deepest of each kind in each code that was measured, and
/// the deepest of all with a qualified name.
const DEEPEST: [(&str, &[Call]); 41] = [
    ("stack-self", ONCE),
    ("stack-one", ONCE),
    ("stack-fixed", ONCE),
    ("stack-two", ONCE),
    ("stack-right", TWICE),
    ("stack-mixed", TWICE),
    ("stack-args", TWICE),
    ("stack-argone", ONCE),
    ("stack-argtwo", ONCE),
    ("stack-un0", ONCE),
    ("stack-un1", ONCE),
    ("stack-bin0", ONCE),
    ("stack-bin1", ONCE),
    ("stack-binu", ONCE),
    ("stack-cycle-second", TWICE),
    ("stack-cycle-first", ONCE),
    ("stack-cycle-optional", ONCE),
    ("stack-cycle-second-same", ONCE),
    ("stack-cycle-first-first", ONCE),
    ("stack-cycle-second-optional-second", ONCE),
    ("stack-cycle-first-first-first", ONCE),
    ("stack-cycle-filled-second-fixed", ONCE),
    ("stack-ends-filled-second-optional-1023", ONCE),
    ("stack-ends-filled-second-optional-1024", TWICE),
    ("stack-ends-filled-second-optional-1025", ONCE),
    ("stack-ends-filled-optional-1023", ONCE),
    ("stack-ends-filled-optional-1024", ONCE),
    ("stack-ends-filled-optional-1025", ONCE),
    ("stack-let-neg-locals", ONCE),
    ("stack-let-neg-self", ONCE),
    ("stack-return-neg-locals", ONCE),
    ("stack-return-neg-self", ONCE),
    ("stack-assign-neg-locals", ONCE),
    ("stack-assign-neg-locals-unknown", ONCE),
    ("stack-assign-neg-right-self", ONCE),
    ("stack-ends-in-seconds-1024", TWICE),
    ("stack-ends-in-seconds-1025", ONCE),
    ("stack-cycle-second-qualified-1", ONCE),
    ("stack-cycle-second-qualified-127", ONCE),
    ("stack-ends-in-seconds-1024-qualified-1", ONCE),
    ("stack-ends-in-seconds-1024-qualified-127", ONCE),
];

/// Cases with images of at most so many bytes, as many of each number of each call as can be, then some large ones.
pub fn balanced(seed: u64, count: usize, most: usize, large: usize) -> Result<Sample, String> {
    // 01's numbers: 25 of one call, and 9 of the other.
    let quota = count.saturating_sub(large).div_ceil(34);
    let mut taken: BTreeMap<(Call, u32), usize> = BTreeMap::new();
    let mut judge = Judge::default();
    let mut sample = vec![];
    // An end, should the images asked for be too small to be met.
    let supply = Cases::new(seed).take(100_000 + 400 * count);
    for case in supply.filter(|case| case.image.len() <= most) {
        if sample.len() + large >= count {
            break;
        }
        let whole = judge.judge(&case)?.whole;
        let bucket = taken.entry((case.call, whole.answer.number)).or_default();
        if *bucket < quota {
            *bucket += 1;
            sample.push((format!("{}", sample.len()), case, whole));
        }
    }
    if sample.len() + large != count {
        return Err(format!(
            "found {} cases with images of at most {most} bytes, and {large} large ones",
            sample.len()
        ));
    }
    for (label, case) in gen::large_cases(seed, large) {
        let whole = judge.judge(&case)?.whole;
        sample.push((label, case, whole));
    }
    Ok(sample)
}

/// The vectors: every edge, a few random cases of each number, the deepest edges, and those of qualified names, of texts and of held
/// types.
pub fn vectors(seed: u64) -> Result<Sample, String> {
    let mut judge = Judge::default();
    let mut sample = vec![];
    let mut add = |label: String, case: Case| -> Result<(), String> {
        let whole = judge.judge(&case).map_err(|said| format!("{label}: {said}"))?.whole;
        sample.push((label, case, whole));
        Ok(())
    };
    let (behind, edges): (Vec<Edge>, Vec<Edge>) =
        gen::edges().into_iter().partition(|edge| BEHIND.iter().any(|start| edge.label.starts_with(start)));
    for (place, edge) in edges.into_iter().filter(stored).enumerate() {
        let whole_case = edge.label == "whole-case";
        let starts = |start: &&str| edge.label.starts_with(*start);
        let twice = whole_case || ASKED_TWICE.iter().any(starts) && edge.image.len() < 2_000;
        for (base, need) in asked(&edge, place, if twice { TWICE } else { ONCE }) {
            add(edge.label.clone(), lent(place, &base, need))?;
            if AT_EVERY_LENGTH.contains(&edge.label.as_str()) {
                let outputs = [0, need.saturating_sub(4), need.saturating_sub(1), need, need + 1, need + 3, 65_536];
                for output in outputs {
                    add(format!("{}-output-{output}", edge.label), Case { output, ..base.clone() })?;
                }
                for detail in [0, 575, 576, 577] {
                    add(format!("{}-detail-{detail}", edge.label), Case { output: need, detail, ..base.clone() })?;
                }
            }
        }
    }
    for (label, case, _) in balanced(seed, 68, 1_200, 0)? {
        add(format!("random-{label}"), case)?;
    }
    for (place, (edge, calls)) in chosen(&behind)?.into_iter().enumerate() {
        for (base, need) in asked(edge, place, calls) {
            add(edge.label.clone(), lent(place, &base, need))?;
            if edge.label == SHORT_DETAIL {
                add(format!("{SHORT_DETAIL}-detail-575"), Case { detail: DETAIL_BYTES - 1, ..base })?;
            }
        }
    }
    Ok(sample)
}

/// What is stored behind all else, in its order. Qualified names are asked for twice where a row is found and the image is small.
fn chosen(behind: &[Edge]) -> Result<Vec<(&Edge, &'static [Call])>, String> {
    let labelled =
        |label: &str| behind.iter().find(|edge| edge.label == label).ok_or(format!("there is no edge {label}"));
    let mut chosen = vec![];
    for (label, calls) in DEEPEST {
        chosen.push((labelled(label)?, calls));
    }
    for edge in behind.iter().filter(|edge| edge.label.starts_with(HALVES)) {
        let twice = !edge.label.ends_with(gen::NOTHING) && edge.image.len() < 2_000;
        chosen.push((edge, if twice { TWICE } else { ONCE }));
    }
    for edge in behind.iter().filter(|edge| edge.label.starts_with(UTF8)) {
        let twice = TEXTS_ASKED_TWICE.contains(&edge.label.as_str());
        chosen.push((edge, if twice { TWICE } else { ONCE }));
    }
    for (place, edge) in behind.iter().filter(|edge| edge.label.starts_with(HELD)).enumerate() {
        let by_turns = BY_TURNS.iter().any(|start| edge.label.starts_with(start));
        chosen.push((edge, if by_turns && place % 2 == 1 { SIGNATURES } else { ONCE }));
    }
    Ok(chosen)
}

/// An edge for some calls, each with the output that it needs.
fn asked(edge: &Edge, place: usize, calls: &[Call]) -> Vec<(Case, usize)> {
    let image: Rc<[u8]> = edge.image.as_slice().into();
    let case = |call: &Call| Case { call: *call, image: image.clone(), row: edge.row, output: 0, detail: DETAIL_BYTES };
    calls.iter().map(case).map(|case| (case.clone(), gen::needed(&case).unwrap_or(place % 9))).collect()
}

/// With lengths that vary from place to place.
fn lent(place: usize, base: &Case, need: usize) -> Case {
    // Replays lend no more than this.
    let output = (need + usize::from(place % 7 == 0)).min(65_536);
    Case { output, detail: DETAIL_BYTES + place % 3, ..base.clone() }
}

/// Not every change of the whole case, width and code is stored.
fn stored(edge: &Edge) -> bool {
    let label = edge.label.as_str();
    let number = label.rsplit('-').find_map(|word| word.parse::<usize>().ok()).unwrap_or(0);
    let of = |starts: &[&str]| starts.iter().any(|start| label.starts_with(start));
    let literal = label.trim_start_matches('u').strip_prefix("int-");
    if of(&["whole-case-"]) {
        number % 16 == 1
    } else if let Some(ty) = literal {
        let skipped = ["u16", "u32", "i16", "i32", "fixed64", "signed-63", "unsigned-63"];
        !skipped.iter().any(|width| ty.starts_with(width))
    } else if of(&["type-expression-"]) || label == format!("type-{number}") {
        !matches!(number, 2..=12 | 65 | 67 | 70..=74)
    } else if label.ends_with("-with-part") {
        matches!(number, 14 | 63 | 76 | 79 | 81)
    } else {
        true
    }
}
