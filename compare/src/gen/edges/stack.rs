//! Edges that need the most stack: substitution that nests as deep as 1,024 visits can, values that nest 32 deep.

use super::{literal, Edges, BOOL, I64, U64};
use crate::gen::deep::{self, Around, CYCLE, DROPPED};
use crate::gen::model::{Model, Words, NONE};
use crate::gen::nested::{nested, placed, Step, LEVELS, PLACES};
use crate::gen::rng::Rng;
use crate::gen::tiny::{tiny, IMPL, P, T, TRAIT};

impl Edges {
    pub(super) fn stacks(&mut self) {
        self.cycles();
        self.filled_cycles();
        self.endings();
        self.values();
        self.qualified_leaves();
    }

    fn substituted(&mut self, label: String, make: impl FnOnce(&mut Rng, &mut Model) -> Words) {
        let mut rich = tiny();
        let expression = make(&mut Rng::new(3), &mut rich.model);
        rich.model.trait_of(IMPL).functions[0].params[0].1 = expression;
        self.implemented(label, rich, 2);
    }

    fn cycle(&mut self, label: String, around: Vec<Around>) {
        self.substituted(format!("stack-cycle{label}"), |rng, model| deep::cycle(rng, model, &[around]));
    }

    /// A<T> = A<T> with none, one, two or three around the cycle, in every order; of the aliases whose argument may hold it the
    /// third place has one.
    fn cycles(&mut self) {
        let mut shapes = vec![(String::new(), vec![])];
        for place in 0..3 {
            let kinds = if place < 2 { &Around::ALL[..] } else { &Around::ALL[..5] };
            let longer = |(label, around): &(String, Vec<Around>)| -> Vec<(String, Vec<Around>)> {
                kinds
                    .iter()
                    .map(|(name, one)| (format!("{label}-{name}"), [around.as_slice(), &[*one]].concat()))
                    .collect()
            };
            let longest: Vec<_> = shapes.iter().filter(|(_, around)| around.len() == place).flat_map(longer).collect();
            shapes.extend(longest);
        }
        for (label, around) in shapes {
            self.cycle(label, around);
        }
    }

    /// With as much around the cycle as 64 words hold: one kind, two by turns, one kind in the alias's own argument.
    fn filled_cycles(&mut self) {
        for (name, one) in Around::ALL {
            self.cycle(format!("-filled-{name}"), deep::filled(&[one], CYCLE));
            let inner = deep::filled(&[one], CYCLE + Around::Itself.words());
            self.cycle(format!("-itself-filled-{name}"), [vec![Around::Itself], inner].concat());
            for (other, second) in Around::ALL.into_iter().filter(|(_, second)| *second != one) {
                self.cycle(format!("-filled-{name}-{other}"), deep::filled(&[one, second], CYCLE));
            }
        }
    }

    /// Without a cycle, with one, as many of one kind and as many of two by turns as 64 words hold around each alias: accepted at
    /// 1,023 and 1,024 visits, refused at 1,025.
    fn endings(&mut self) {
        let mut shapes: Vec<(String, Vec<Around>)> = vec![];
        for (name, one) in Around::ENDING {
            shapes.push((name.to_string(), vec![one]));
            shapes.push((format!("filled-{name}"), deep::filled(&[one], DROPPED)));
            for (other, second) in Around::ENDING.into_iter().filter(|(_, second)| *second != one) {
                shapes.push((format!("filled-{name}-{other}"), deep::filled(&[one, second], DROPPED)));
            }
        }
        for (label, around) in shapes {
            for visits in [1_023, 1_024, 1_025] {
                let make = |rng: &mut Rng, model: &mut Model| deep::ending(rng, model, &around, visits);
                self.substituted(format!("stack-ends-{label}-{visits}"), make);
            }
        }
        for visits in [1_023, 1_024, 1_025] {
            let make = |rng: &mut Rng, model: &mut Model| deep::ending_in_seconds(rng, model, visits, None);
            self.substituted(format!("stack-ends-in-seconds-{visits}"), make);
        }
    }

    /// The deepest of both kinds with a qualified name, as the first part of the cycle's Map and as the innermost leaf, by halves of
    /// one byte and by the longest: the images are alike but for these texts and where they lie.
    fn qualified_leaves(&mut self) {
        for length in [1, 127] {
            self.substituted(format!("stack-cycle-second-qualified-{length}"), |rng, model| {
                let leaf = qualified(model, length);
                deep::cycle_behind(rng, model, &leaf)
            });
            self.substituted(format!("stack-ends-in-seconds-1024-qualified-{length}"), |rng, model| {
                let leaf = qualified(model, length);
                deep::ending_in_seconds(rng, model, 1_024, Some(&leaf))
            });
        }
    }

    /// In each place that has a value: accepted, and refused at the innermost level.
    fn values(&mut self) {
        let (neg, not, add) = (Step::Unary(0), Step::Unary(1), 0);
        let one = literal(0, 1);
        let numbers: [(&str, &[Step]); 6] = [
            ("neg", &[neg]),
            ("left", &[Step::Left(add)]),
            ("right", &[Step::Right(add)]),
            ("neg-left", &[neg, Step::Left(add)]),
            ("neg-right", &[neg, Step::Right(add)]),
            ("left-right", &[Step::Left(add), Step::Right(add)]),
        ];
        for (label, steps) in numbers {
            for (leaf, operand) in [("literals", &one[..]), ("locals", &[5, P])] {
                let value = |tip: &[u32]| nested(steps, LEVELS, operand, tip);
                self.placed(&format!("{label}-{leaf}"), I64, &value(operand));
                self.placed(&format!("{label}-{leaf}-unknown"), I64, &value(&[5, T]));
            }
            self.placed(&format!("{label}-self"), I64, &nested(steps, LEVELS, &one, &[6]));
        }
        self.placed("not", BOOL, &nested(&[not], LEVELS, &[], &[3, 1]));
        self.placed("neg-unsigned", U64, &nested(&[neg], LEVELS, &[], &literal(1, 1)));
    }

    fn placed(&mut self, label: &str, ty: u32, value: &[u32]) {
        for place in PLACES {
            self.rich(format!("stack-{place}-{label}"), &placed(place, ty, value));
        }
    }
}

/// A qualified name whose halves have so many bytes, and its row.
fn qualified(model: &mut Model, length: usize) -> Words {
    let [left, right] = ["L", "R"].map(|letter| letter.repeat(length));
    let joined = format!("{left}.{right}");
    let halves = [left, right].map(|half| model.add_name(half.into(), NONE));
    model.add_name(joined.into(), TRAIT);
    [&[49], halves.as_slice()].concat()
}

#[cfg(test)]
mod tests {
    use crate::case::Case;
    use crate::gen::edges;
    use crate::judge::Judge;
    use crate::second::{Call, DETAIL_BYTES};

    #[test]
    fn a_qualified_leaf_leaves_number_and_visits() {
        let edges = edges();
        for (label, expected) in [("stack-cycle-second", (8, 0)), ("stack-ends-in-seconds-1024", (0, 1_024))] {
            for leaf in ["", "-qualified-1", "-qualified-127"] {
                let edge = edges.iter().find(|edge| edge.label == format!("{label}{leaf}")).unwrap();
                let (call, image) = (Call::ProjectImpl, edge.image.as_slice().into());
                let case = Case { call, image, row: edge.row, output: 4_096, detail: DETAIL_BYTES };
                let answer = Judge::default().judge(&case).ok().unwrap().whole.answer;
                assert_eq!((answer.number, answer.visits), expected, "{label}{leaf}");
            }
        }
    }
}
