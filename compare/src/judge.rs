//! Judges one case: the second reading's whole answer, and the Rust beside it wherever it can be asked.

use std::rc::Rc;

use oracle::{Cost, Loaded, Read, Told};

use crate::buffers::{Buffers, Side, DETAIL_FILL, OUTPUT_FILL};
use crate::case::{Case, Whole};
use crate::child;
use crate::second::{self, Answer, Call, DETAIL_BYTES, NONE};
use crate::sentence::sentence;

/// Who has judged what stands under a case's answer.
#[derive(Clone, Copy, PartialEq, Eq, PartialOrd, Ord)]
pub enum By {
    /// The Rust and the second reading.
    Rust,
    /// 2 and 3: the loader and the second reading.
    Loader,
    /// 8, which the Rust may not survive: a count on its trees and the second reading.
    Count,
}

impl By {
    pub const ALL: [By; 3] = [By::Rust, By::Loader, By::Count];

    pub fn words(self) -> &'static str {
        match self {
            By::Rust => "by the Rust and the second reading",
            By::Loader => "2 or 3, by the loader and the second reading",
            By::Count => "8, by a count on the Rust's trees and the second reading",
        }
    }
}

pub struct Judged {
    pub whole: Whole,
    pub by: By,
}

#[derive(Default)]
pub struct Judge {
    /// By call, a side that must answer as the second reading does, and leave every byte of both buffers as it does.
    beside: [Option<Side>; 2],
    buffers: Buffers,
    others: Buffers,
    /// The last image's schema: several cases ask about one image.
    loaded: Option<(Rc<[u8]>, Read<Loaded>)>,
}

impl Judge {
    /// With a side beside, by call.
    pub fn with(beside: [Option<Side>; 2]) -> Self {
        Judge { beside, ..Judge::default() }
    }

    /// The case's answer, or how the sides differ.
    pub fn judge(&mut self, case: &Case) -> Result<Judged, String> {
        let whole = self.ask(case)?;
        let under = self.under(case, &whole)?;
        let by = self.beside(case, &under)?;
        Ok(Judged { whole, by })
    }

    /// Asks the second reading, and sees that it wrote no more than it may.
    fn ask(&mut self, case: &Case) -> Result<Whole, String> {
        let answer = self.buffers.ask(second_reading, case)?;
        if let Some(side) = self.beside[case.call as usize] {
            let other = self.others.ask(side, case)?;
            same(&answer, &other, &self.buffers, &self.others)?;
        }
        let written = if answer.number == 0 { answer.length as usize } else { 0 };
        let (output, rest) = self.buffers.output().split_at_checked(written).ok_or("a length past the lent output")?;
        if rest.iter().any(|byte| *byte != OUTPUT_FILL) {
            return Err("the output is changed where it must be kept".into());
        }
        let (_, told) = sentence(&case.image, &answer, self.buffers.detail()).ok_or("names or detail make no sense")?;
        let (detail, rest) = self.buffers.detail().split_at(told);
        if rest.iter().any(|byte| *byte != DETAIL_FILL) {
            return Err("the detail is changed where it must be kept".into());
        }
        Ok(Whole { answer, output: output.to_vec(), detail: detail.to_vec() })
    }

    /// 1 and 24 depend on the buffers only: what ample buffers give stands under them.
    fn under(&mut self, case: &Case, whole: &Whole) -> Result<Whole, String> {
        let refused = |number, length| Answer { number, function: NONE, second: NONE, length, visits: 0 };
        match whole.answer.number {
            1 => {
                if whole.answer != refused(1, 0) || case.detail >= DETAIL_BYTES {
                    return Err("1 is given wrongly".into());
                }
                let ample = Case { output: 0, detail: DETAIL_BYTES, ..case.clone() };
                let whole = self.ask(&ample)?;
                self.under(&ample, &whole)
            }
            24 => {
                let length = whole.answer.length;
                if whole.answer != refused(24, length) || length as usize <= case.output {
                    return Err("24 is given wrongly".into());
                }
                let under = self.ask(&Case { output: length as usize, ..case.clone() })?;
                match (under.answer.number, under.answer.length) {
                    (0, needed) if needed == length => Ok(under),
                    _ => Err("24 asks for a length that does not do".into()),
                }
            }
            _ => Ok(whole.clone()),
        }
    }

    /// Asks the Rust wherever it can be asked.
    fn beside(&mut self, case: &Case, under: &Whole) -> Result<By, String> {
        if !matches!(&self.loaded, Some((image, _)) if Rc::ptr_eq(image, &case.image)) {
            self.loaded = Some((case.image.clone(), oracle::load(&case.image)));
        }
        let (_, loaded) = self.loaded.as_ref().unwrap();
        let number = under.answer.number;
        let loaded = match (loaded, number) {
            (Err(_), 2) => return Ok(By::Loader),
            (Err(why), _) => return Err(format!("the loader finds the image unreadable: {why}")),
            (Ok(_), 2) => return Err("the loader finds the image readable".into()),
            (Ok(loaded), _) => loaded,
        };
        match (loaded.is_implementation(case.row), number) {
            (false, 3) => return Ok(By::Loader),
            (true, 3) | (false, _) => return Err("the loader differs on 3".into()),
            _ => {}
        }
        if let Some(cost) = loaded.cost(case.row) {
            counted(&cost, &under.answer)?;
            if number == 8 {
                return Ok(By::Count);
            }
            // A refusal that comes before a type that is too large: if the Rust went on, it would not come back.
            if cost.too_large().is_some() && !child::ask(case)?.success() {
                return Err(format!("the Rust dies, the second reading says {:?}", under.answer));
            }
        }
        let told = match case.call {
            Call::ProjectImpl => loaded.project_impl(case.row),
            Call::ExpectedSignatures => loaded.expected_signatures(case.row),
        };
        agree(&told.ok_or("the Rust finds no implementation")?, under, &case.image)?;
        Ok(By::Rust)
    }
}

/// The second reading as a side.
pub fn second_reading(
    call: Call,
    image: &[u8],
    row: u32,
    output: &mut [u8],
    detail: &mut [u8],
) -> Result<Answer, String> {
    Ok(second::answer(call, image, row, output, detail))
}

/// All five fields, and every byte that was lent.
fn same(answer: &Answer, other: &Answer, buffers: &Buffers, others: &Buffers) -> Result<(), String> {
    if answer != other {
        return Err(format!("a side beside says {other:?}, the second reading {answer:?}"));
    }
    for (what, left, right) in
        [("output", buffers.output(), others.output()), ("detail", buffers.detail(), others.detail())]
    {
        if let Some(at) = left.iter().zip(right).position(|(one, other)| one != other) {
            return Err(format!("a side beside leaves another byte in the {what}, at {at}"));
        }
    }
    Ok(())
}

/// 8 at the first function that is too large, unless another refusal comes before; the visits of an accepted answer.
fn counted(cost: &Cost, answer: &Answer) -> Result<(), String> {
    let first = cost.too_large();
    let named = cost.functions.iter().position(|(name, _)| *name == answer.function);
    let total = cost.functions.iter().map(|(_, visits)| *visits).sum::<Option<u32>>();
    let agrees = match answer.number {
        0 => total == Some(answer.visits),
        8 => first.is_some() && first == named,
        // Every function up to the one with poison was measured.
        7 => first.is_none() || named < first,
        // The target comes before the functions.
        5 => true,
        _ => first.is_none(),
    };
    if agrees {
        Ok(())
    } else {
        Err(format!("the count of visits differs: {total:?}, {answer:?}"))
    }
}

fn agree(told: &Told, under: &Whole, image: &[u8]) -> Result<(), String> {
    let answer = &under.answer;
    // The Rust has no second name for 6; the sentence has it.
    let second = if answer.number == 6 { NONE } else { answer.second };
    if (told.number, told.function, told.second) != (answer.number, answer.function, second) {
        return Err(format!("the Rust says {told:?}, the second reading {answer:?}"));
    }
    let output: Vec<u8> = told.output.iter().flat_map(|word| word.to_le_bytes()).collect();
    if output != under.output {
        return Err(format!("the Rust writes {:?}", told.output));
    }
    let (ours, _) = sentence(image, answer, &under.detail).ok_or("names or detail make no sense")?;
    if told.sentence != ours {
        return Err(format!("the Rust prints \"{}\", our words \"{ours}\"", told.sentence));
    }
    Ok(())
}

#[cfg(test)]
mod tests {
    use super::*;
    use crate::gen;

    /// Judges edges and random cases with a side beside both calls.
    fn beside(side: Side) -> Result<(), String> {
        let mut judge = Judge::with([Some(side); 2]);
        for case in gen::edge_cases().chain(gen::Cases::with_families(5).take(3_000)) {
            judge.judge(&case).map_err(|said| format!("{said}: {}", crate::text::question(&case)))?;
        }
        Ok(())
    }

    #[test]
    fn edges_and_random_cases_agree() {
        beside(second_reading).unwrap();
    }

    #[test]
    fn a_slip_of_a_side_beside_is_found() {
        let slips: [(&str, Side); 4] = [
            ("says", |call, image, row, output, detail| {
                let answer = second::answer(call, image, row, output, detail);
                Ok(Answer { visits: answer.visits.min(1_024), ..answer })
            }),
            ("output", |call, image, row, output, detail| {
                let answer = second::answer(call, image, row, output, detail);
                if answer.number == 24 {
                    output.fill(0);
                }
                Ok(answer)
            }),
            ("output", |call, image, row, output, detail| {
                let answer = second::answer(call, image, row, output, detail);
                if let (0, Some(behind)) = (answer.number, output.get_mut(answer.length as usize)) {
                    *behind = 0;
                }
                Ok(answer)
            }),
            ("detail", |call, image, row, output, detail| {
                if let Some(last) = detail.get_mut(576) {
                    *last = 0;
                }
                second_reading(call, image, row, output, detail)
            }),
        ];
        for (what, slip) in slips {
            assert!(beside(slip).is_err_and(|said| said.contains(what)));
        }
    }
}
