//! What a run counts: cases by number for each call, who judged them, and differences with their smallest input.

use std::collections::BTreeMap;
use std::fmt;

use crate::case::Case;
use crate::judge::{By, Judged};
use crate::second::Call;
use crate::text;

const NUMBERS: usize = 25;

#[derive(Default)]
pub struct Table {
    cases: u64,
    counts: [[u64; NUMBERS]; 2],
    by: BTreeMap<By, u64>,
    /// By number and first detail word: 6's kind, 20's context, 21's operator, 22's kind.
    details: BTreeMap<(u32, u32), u64>,
    /// By what is said: how often, and the smallest case.
    differences: BTreeMap<String, (u64, Case)>,
}

impl Table {
    pub fn add(&mut self, case: &Case, judged: Result<Judged, String>) {
        self.cases += 1;
        match judged {
            Ok(judged) => {
                self.counts[case.call as usize][judged.whole.answer.number as usize] += 1;
                *self.by.entry(judged.by).or_default() += 1;
                if let Some(first) = judged.whole.detail.first_chunk() {
                    let kind = u32::from_le_bytes(*first);
                    *self.details.entry((judged.whole.answer.number, kind)).or_default() += 1;
                }
            }
            Err(said) => {
                // Digits vary from case to case; the words tell differences apart.
                let kind: String = said.chars().filter(|c| !c.is_ascii_digit()).take(60).collect();
                let (count, smallest) = self.differences.entry(kind).or_insert_with(|| (0, case.clone()));
                *count += 1;
                if case.image.len() < smallest.image.len() {
                    *smallest = case.clone();
                }
            }
        }
    }

    pub fn agrees(&self) -> bool {
        self.differences.is_empty()
    }
}

impl fmt::Display for Table {
    fn fmt(&self, f: &mut fmt::Formatter<'_>) -> fmt::Result {
        writeln!(f, "number  project_impl  expected_signatures       all     share")?;
        for number in 0..NUMBERS {
            let [project, signatures] =
                [Call::ProjectImpl, Call::ExpectedSignatures].map(|call| self.counts[call as usize][number]);
            let share = 100.0 * (project + signatures) as f64 / self.cases.max(1) as f64;
            writeln!(f, "{number:6}  {project:12}  {signatures:19}  {:8}  {share:6.2} %", project + signatures)?;
        }
        for (number, what) in [(6, "kind"), (20, "context"), (21, "operator"), (22, "kind")] {
            let kinds = self.details.range((number, 0)..=(number, u32::MAX));
            let counts: Vec<String> = kinds.map(|((_, kind), count)| format!("{kind}: {count}")).collect();
            writeln!(f, "{number} by {what}: {}", counts.join(", "))?;
        }
        for by in By::ALL {
            writeln!(f, "{:8} judged {}", self.by.get(&by).unwrap_or(&0), by.words())?;
        }
        writeln!(
            f,
            "{} cases, {} differences",
            self.cases,
            self.differences.values().map(|(count, _)| count).sum::<u64>()
        )?;
        for (said, (count, case)) in &self.differences {
            writeln!(f, "DIFFERENCE, {count} times: {said}\n  smallest: {}", text::question(case))?;
        }
        Ok(())
    }
}
