//! "The schema image": everything that is read is checked here; None is number 2.

use super::utf8::well_formed;
use super::NONE;

/// A type's words in prefix order, resolved or an expression.
pub type Run = Vec<u32>;

/// "a type run 64 words"
pub const RUN_WORDS: usize = 64;

pub struct Image {
    pub names: Vec<Name>,
    pub definitions: Vec<Definition>,
}

pub struct Name {
    pub text: Vec<u8>,
    /// A definition number or NONE.
    pub definition: u32,
    /// An alias's resolved type.
    pub alias: Option<Run>,
}

pub enum Definition {
    Other,
    Message(Vec<(u32, Run)>),
    Alias { params: Vec<u32>, target: Run },
    Trait(Trait),
    Implementation(Implementation),
}

pub struct Trait {
    pub name: u32,
    pub params: Vec<u32>,
    pub functions: Vec<TraitFunction>,
}

pub struct TraitFunction {
    pub name: u32,
    pub params: Vec<(u32, Run)>,
    pub returns: TraitReturn,
}

pub enum TraitReturn {
    Nothing,
    Resolved(Run),
    Expression(Run),
}

pub struct Implementation {
    /// The trait's number; any word.
    pub of: u32,
    pub trait_name: u32,
    pub target: Run,
    pub arguments: Vec<Run>,
    pub functions: Vec<Function>,
}

pub struct Function {
    pub name: u32,
    pub params: Vec<(u32, Run)>,
    pub returns: Option<Run>,
    /// None is External.
    pub body: Option<Vec<Statement>>,
}

pub enum Statement {
    Expr,
    Let(u32, Option<Run>, Expr),
    Return(Option<Expr>),
    Assign(Expr, Expr),
}

/// What a rule reads of an expression: calls keep only the name that 13 and 14 give back.
pub enum Expr {
    Int(u64),
    UInt(u64),
    Float(u64),
    Bool(u32),
    String(u32),
    Local(u32),
    SelfRef,
    FieldAccess(u32, Box<Expr>),
    Call(u32),
    TraitMethodCall(u32),
    Binary(u32, Box<Expr>, Box<Expr>),
    Unary(u32, Box<Expr>),
}

impl Image {
    pub fn definition(&self, number: u32) -> Option<&Definition> {
        self.definitions.get(number as usize)
    }
}

pub fn read(bytes: &[u8]) -> Option<Image> {
    let body = bytes.len().checked_sub(24)?;
    let word = |at: usize| u32::from_le_bytes([bytes[at], bytes[at + 1], bytes[at + 2], bytes[at + 3]]);
    let trailer = |index: usize| word(body + 4 * index) as usize;
    let [names, strings, pool, definitions] = [trailer(0), trailer(1), trailer(2), trailer(3)];

    let readable = bytes.len() <= 65_536
        && trailer(4) == 1
        && trailer(5) == bytes.len()
        && names <= strings && strings <= pool && pool <= definitions && definitions <= body
        // "five adjoining sections of whole rows"
        && (strings - names) % 16 == 0 && (strings - names) / 16 <= 1_024
        && (pool - strings) % 8 == 0 && (pool - strings) / 8 <= 1_024
        && (definitions - pool) % 4 == 0
        && (body - definitions) % 8 == 0 && (body - definitions) / 8 <= 256;
    if !readable {
        return None;
    }

    // A row's own bytes alone: those beside it complete nothing, and those of no row are free.
    let text = |row: usize| {
        let (start, length) = (word(row) as usize, word(row + 4) as usize);
        bytes[..names].get(start..start + length).filter(|text| well_formed(text))
    };
    let words: Vec<u32> = (pool..definitions).step_by(4).map(word).collect();
    let counts = Counts {
        names: ((strings - names) / 16) as u32,
        strings: ((pool - strings) / 8) as u32,
        definitions: ((body - definitions) / 8) as u32,
    };
    let from = |start: u32| Reader { words: &words, at: start as usize, counts: &counts };

    for row in (strings..pool).step_by(8) {
        text(row)?;
    }
    let mut image = Image { names: Vec::new(), definitions: Vec::new() };
    for row in (names..strings).step_by(16) {
        let (text, definition, alias) = (text(row)?.to_vec(), word(row + 8), word(row + 12));
        let good = (1..=255).contains(&text.len()) && (definition == NONE || definition < counts.definitions);
        if !good {
            return None;
        }
        let alias = if alias == NONE { None } else { Some(from(alias).resolved()?) };
        image.names.push(Name { text, definition, alias });
    }
    // "all different"
    let mut texts: Vec<&[u8]> = image.names.iter().map(|name| name.text.as_slice()).collect();
    texts.sort_unstable();
    if texts.windows(2).any(|pair| pair[0] == pair[1]) {
        return None;
    }
    for row in (definitions..body).step_by(8) {
        image.definitions.push(from(word(row + 4)).definition(word(row))?);
    }
    Some(image)
}

struct Counts {
    names: u32,
    strings: u32,
    definitions: u32,
}

/// Reads the pool from a start; "reads stay inside it".
struct Reader<'a> {
    words: &'a [u32],
    at: usize,
    counts: &'a Counts,
}

impl Reader<'_> {
    fn word(&mut self) -> Option<u32> {
        let word = *self.words.get(self.at)?;
        self.at += 1;
        Some(word)
    }

    fn at_most(&mut self, most: u32) -> Option<u32> {
        self.word().filter(|word| *word <= most)
    }

    /// "any name or string row referred to, must exist"
    fn name(&mut self) -> Option<u32> {
        let count = self.counts.names;
        self.word().filter(|row| *row < count)
    }

    fn two_words(&mut self) -> Option<u64> {
        let low = self.word()?;
        let high = self.word()?;
        Some((u64::from(high) << 32) + u64::from(low))
    }

    fn many<T>(&mut self, most: u32, one: impl Fn(&mut Self) -> Option<T>) -> Option<Vec<T>> {
        let count = self.at_most(most)?;
        let mut items = Vec::new();
        for _ in 0..count {
            items.push(one(self)?);
        }
        Some(items)
    }

    fn resolved(&mut self) -> Option<Run> {
        self.run(false)
    }

    fn expression(&mut self) -> Option<Run> {
        self.run(true)
    }

    /// "Types, prefix order": a node's parts follow it, so a count of parts still to come finds the end.
    fn run(&mut self, expression: bool) -> Option<Run> {
        let start = self.at;
        let mut parts = 1;
        while parts > 0 {
            parts -= 1;
            match self.word()? {
                0..=13 | 32..=37 => {}
                16 => {
                    self.at_most(1)?;
                    self.at_most(64).filter(|bits| *bits > 0)?;
                }
                // "a definition number (any word ..) in a resolved type, a name in an expression"
                48 => drop(if expression { self.name()? } else { self.word()? }),
                49 if expression => {
                    self.name()?;
                    self.name()?;
                }
                50 if expression => {
                    self.name()?;
                    parts += 1;
                }
                66 => {
                    self.two_words()?;
                    parts += 1;
                }
                68 | 69 => parts += 2,
                64..=75 => parts += 1,
                80 => drop(self.many(62, Self::name)?),
                _ => return None,
            }
        }
        let run = &self.words[start..self.at];
        (run.len() <= RUN_WORDS).then(|| run.to_vec())
    }

    fn definition(&mut self, kind: u32) -> Option<Definition> {
        Some(match kind {
            0 => Definition::Other,
            1 => Definition::Message(self.many(256, |r| Some((r.name()?, r.resolved()?)))?),
            2 => Definition::Alias { params: self.many(8, Self::name)?, target: self.expression()? },
            3 => Definition::Trait(self.trait_definition()?),
            4 => Definition::Implementation(Implementation {
                of: self.word()?,
                trait_name: self.name()?,
                target: self.resolved()?,
                arguments: self.many(8, Self::resolved)?,
                functions: self.many(64, Self::function)?,
            }),
            _ => return None,
        })
    }

    fn trait_definition(&mut self) -> Option<Trait> {
        let (name, params) = (self.name()?, self.many(8, Self::name)?);
        let functions = self.many(64, |r| {
            Some(TraitFunction {
                name: r.name()?,
                params: r.many(32, |r| Some((r.name()?, r.expression()?)))?,
                returns: match r.at_most(2)? {
                    0 => TraitReturn::Nothing,
                    1 => TraitReturn::Resolved(r.resolved()?),
                    _ => TraitReturn::Expression(r.expression()?),
                },
            })
        })?;
        // "A trait may not list a function name twice."
        let twice = |at: usize| functions[..at].iter().any(|earlier| earlier.name == functions[at].name);
        if (0..functions.len()).any(twice) {
            return None;
        }
        Some(Trait { name, params, functions })
    }

    fn function(&mut self) -> Option<Function> {
        Some(Function {
            name: self.name()?,
            params: self.many(32, |r| Some((r.name()?, r.resolved()?)))?,
            returns: if self.at_most(1)? == 1 { Some(self.resolved()?) } else { None },
            body: if self.at_most(1)? == 1 { Some(self.body()?) } else { None },
        })
    }

    fn body(&mut self) -> Option<Vec<Statement>> {
        let statements = self.many(256, Self::statement)?;
        let lets = statements.iter().filter(|statement| matches!(statement, Statement::Let(..))).count();
        (lets <= 32).then_some(statements)
    }

    fn statement(&mut self) -> Option<Statement> {
        Some(match self.word()? {
            0 => {
                self.expr(32)?;
                Statement::Expr
            }
            1 => {
                let name = self.name()?;
                let written = if self.at_most(1)? == 1 { Some(self.resolved()?) } else { None };
                Statement::Let(name, written, self.expr(32)?)
            }
            2 => Statement::Return(if self.at_most(1)? == 1 { Some(self.expr(32)?) } else { None }),
            3 => Statement::Assign(self.expr(32)?, self.expr(32)?),
            _ => return None,
        })
    }

    /// "an expression's nesting 32 (a leaf is 1)": `left` is what is allowed here.
    fn expr(&mut self, left: u32) -> Option<Expr> {
        let below = left.checked_sub(1)?;
        Some(match self.word()? {
            0 => Expr::Int(self.two_words()?),
            1 => Expr::UInt(self.two_words()?),
            2 => Expr::Float(self.two_words()?),
            3 => Expr::Bool(self.at_most(1)?),
            4 => {
                let count = self.counts.strings;
                Expr::String(self.word().filter(|row| *row < count)?)
            }
            5 => Expr::Local(self.name()?),
            6 => Expr::SelfRef,
            7 => Expr::FieldAccess(self.name()?, Box::new(self.expr(below)?)),
            8 => {
                let name = self.name()?;
                self.many(32, |r| r.expr(below))?;
                Expr::Call(name)
            }
            9 => {
                let (_trait, method, count) = (self.name()?, self.name()?, self.at_most(32)?);
                // The receiver, which the count does not include, then the arguments.
                for _ in 0..=count {
                    self.expr(below)?;
                }
                Expr::TraitMethodCall(method)
            }
            10 => Expr::Binary(self.at_most(9)?, Box::new(self.expr(below)?), Box::new(self.expr(below)?)),
            11 => Expr::Unary(self.at_most(1)?, Box::new(self.expr(below)?)),
            _ => return None,
        })
    }
}
