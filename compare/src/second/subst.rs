//! "Substitution": a type expression's run and its visits.

use super::image::{Definition, Image, Run, RUN_WORDS};
use super::NONE;

/// "8 is given when one expression needs over 1,024 visits".
const VISITS: u32 = 1_024;

/// Number 8.
pub struct TooLarge;

/// The type parameters in view, each with its argument.
#[derive(Clone, Copy)]
pub struct View<'a> {
    pub params: &'a [u32],
    pub arguments: &'a [Run],
}

pub const POISON: [u32; 2] = [48, NONE];

/// The resolved run of one whole expression and its visits.
pub fn substitute(image: &Image, expression: &[u32], view: View) -> Result<(Run, u32), TooLarge> {
    let mut walk = Walk { image, visits: 0 };
    let run = walk.node(expression, &mut 0, view)?;
    Ok((run, walk.visits))
}

struct Walk<'a> {
    image: &'a Image,
    visits: u32,
}

impl<'a> Walk<'a> {
    /// "A visit is one type-expression node read": the node at `at`, which ends behind it.
    fn node(&mut self, expression: &[u32], at: &mut usize, view: View) -> Result<Run, TooLarge> {
        self.visits += 1;
        if self.visits > VISITS {
            return Err(TooLarge);
        }
        let start = *at;
        let (own, parts) = shape(&expression[start..]);
        let words = &expression[start..start + own];
        *at = start + own;
        let run = match words[0] {
            48 => self.named(words[1], view),
            49 => self.qualified(words[1], words[2]),
            50 => match self.one_parameter_alias(words[1]) {
                Some((param, target)) => {
                    // "Then the argument is resolved, and the target with only that parameter in view."
                    let argument = self.node(expression, at, view)?;
                    let inside = View { params: &[param], arguments: &[argument] };
                    self.node(target, &mut 0, inside)?
                }
                None => {
                    // "else poison, its argument unread"
                    skip(expression, at);
                    POISON.to_vec()
                }
            },
            // "The rest go part by part."
            _ => {
                let mut run = words.to_vec();
                for _ in 0..parts {
                    run.extend(self.node(expression, at, view)?);
                }
                run
            }
        };
        // "or any resolved run on the way passes 64 words"
        if run.len() > RUN_WORDS {
            Err(TooLarge)
        } else {
            Ok(run)
        }
    }

    /// "the first equal type parameter's argument; else an alias to a primitive; else the name's definition number;
    /// else an alias to Named; else poison"
    fn named(&self, name: u32, view: View) -> Run {
        if let Some(place) = view.params.iter().position(|param| *param == name) {
            return view.arguments[place].clone();
        }
        match self.image.names[name as usize].alias.as_deref() {
            Some(&[primitive @ 0..=13]) => vec![primitive],
            _ => self.definition_or_alias(name).map_or(POISON.to_vec(), |number| vec![48, number]),
        }
    }

    /// "the definition or Named alias of the text namespace, ".", name, else poison"
    fn qualified(&self, namespace: u32, name: u32) -> Run {
        let names = &self.image.names;
        let text = [names[namespace as usize].text.as_slice(), b".", names[name as usize].text.as_slice()].concat();
        let row = names.iter().position(|name| name.text == text);
        row.and_then(|row| self.definition_or_alias(row as u32)).map_or(POISON.to_vec(), |number| vec![48, number])
    }

    /// A name's definition number, else that of its Named alias.
    fn definition_or_alias(&self, name: u32) -> Option<u32> {
        let row = &self.image.names[name as usize];
        match row.alias.as_deref() {
            _ if row.definition != NONE => Some(row.definition),
            Some(&[48, number]) => Some(number),
            _ => None,
        }
    }

    /// "a name whose definition, else Named alias, is a one-parameter generic alias"
    fn one_parameter_alias(&self, name: u32) -> Option<(u32, &'a [u32])> {
        match self.image.definition(self.definition_or_alias(name)?) {
            Some(Definition::Alias { params, target }) if params.len() == 1 => Some((params[0], target)),
            _ => None,
        }
    }
}

/// A node's own words and how many parts follow.
fn shape(run: &[u32]) -> (usize, u32) {
    match run[0] {
        16 | 49 => (3, 0),
        48 => (2, 0),
        50 => (2, 1),
        66 => (3, 1),
        68 | 69 => (1, 2),
        64..=75 => (1, 1),
        80 => (2 + run[1] as usize, 0),
        _ => (1, 0),
    }
}

fn skip(run: &[u32], at: &mut usize) {
    let mut nodes = 1;
    while nodes > 0 {
        let (own, parts) = shape(&run[*at..]);
        *at += own;
        nodes = nodes - 1 + parts;
    }
}

/// "poison anywhere": a node of the run, not any word that looks like one.
pub fn contains_poison(run: &[u32]) -> bool {
    let mut at = 0;
    while at < run.len() {
        let (own, _) = shape(&run[at..]);
        if run[at..at + own] == POISON {
            return true;
        }
        at += own;
    }
    false
}
