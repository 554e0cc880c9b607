//! An image in the making: its rows, with types, expressions and statements as words; and the image's bytes.

use super::rng::Rng;

pub const NONE: u32 = u32::MAX;

/// A type, a type expression, an expression or a statement, as it stands in the pool.
pub type Words = Vec<u32>;

#[derive(Clone, Default)]
pub struct Model {
    pub names: Vec<Name>,
    pub strings: Vec<Vec<u8>>,
    pub defs: Vec<Def>,
}

#[derive(Clone)]
pub struct Name {
    pub text: Vec<u8>,
    pub def: u32,
    pub alias: Option<Words>,
}

#[derive(Clone)]
pub enum Def {
    Other,
    Message(Vec<(u32, Words)>),
    Alias(Vec<u32>, Words),
    Trait(TraitDef),
    Impl(ImplDef),
}

#[derive(Clone)]
pub struct TraitDef {
    pub name: u32,
    pub params: Vec<u32>,
    pub functions: Vec<TraitFn>,
}

#[derive(Clone)]
pub struct TraitFn {
    pub name: u32,
    pub params: Vec<(u32, Words)>,
    /// With its form: 0, or 1 or 2 and the words.
    pub returns: Words,
}

#[derive(Clone)]
pub struct ImplDef {
    pub of: u32,
    pub trait_name: u32,
    pub target: Words,
    pub arguments: Vec<Words>,
    pub functions: Vec<ImplFn>,
}

#[derive(Clone)]
pub struct ImplFn {
    pub name: u32,
    pub params: Vec<(u32, Words)>,
    pub returns: Option<Words>,
    /// None is External.
    pub body: Option<Vec<Words>>,
}

impl Model {
    pub fn add_name(&mut self, text: Vec<u8>, def: u32) -> u32 {
        self.names.push(Name { text, def, alias: None });
        self.names.len() as u32 - 1
    }

    /// A name whose text no other name has.
    pub fn fresh_name(&mut self, rng: &mut Rng, def: u32) -> u32 {
        let mut text = vec![b'a' + rng.below(26) as u8];
        while self.names.iter().any(|name| name.text == text) {
            text.push(b'a' + rng.below(26) as u8);
        }
        self.add_name(text, def)
    }

    pub fn add_def(&mut self, def: Def) -> u32 {
        self.defs.push(def);
        self.defs.len() as u32 - 1
    }

    pub fn impl_mut(&mut self, row: u32) -> &mut ImplDef {
        match &mut self.defs[row as usize] {
            Def::Impl(def) => def,
            _ => panic!("row {row} is no implementation"),
        }
    }

    /// The trait that an implementation of this model has.
    pub fn trait_of(&mut self, row: u32) -> &mut TraitDef {
        let of = self.impl_mut(row).of;
        match &mut self.defs[of as usize] {
            Def::Trait(def) => def,
            _ => panic!("row {of} is no trait"),
        }
    }

    /// The row of a text.
    pub fn row_of(&self, text: &[u8]) -> Option<u32> {
        self.names.iter().position(|name| name.text == text).map(|row| row as u32)
    }

    /// The plainest image: everything by row, nothing shared, no gaps.
    pub fn plain_image(&self) -> Vec<u8> {
        self.image(vec![], &mut Layout::Plain)
    }

    /// An image whose texts begin with these: what stands somewhere already is not written again.
    pub fn shared_image(&self, texts: &[u8]) -> Vec<u8> {
        self.image(texts.to_vec(), &mut Layout::Shared)
    }

    /// An image whose texts and types may be shared, with free bytes and words between, bodies in any order.
    pub fn loose_image(&self, rng: &mut Rng) -> Vec<u8> {
        self.image(vec![], &mut Layout::Loose(rng))
    }

    fn image(&self, mut texts: Vec<u8>, layout: &mut Layout) -> Vec<u8> {
        let mut pool = Words::new();
        let mut starts = vec![0; self.defs.len()];
        for row in layout.order(self.defs.len()) {
            layout.gap(&mut pool, NONE);
            starts[row] = pool.len() as u32;
            self.defs[row].write(&mut pool);
        }
        let mut rows = Words::new();
        for name in &self.names {
            let start = layout.place(&mut texts, &name.text, b'~');
            let alias = name.alias.as_ref().map_or(NONE, |run| layout.place(&mut pool, run, 99));
            rows.extend([start, name.text.len() as u32, name.def, alias]);
        }
        let names = rows.len();
        for text in &self.strings {
            rows.extend([layout.place(&mut texts, text, b'~'), text.len() as u32]);
        }
        let strings = rows.len() - names;
        let definitions = self.defs.iter().zip(starts).flat_map(|(def, start)| [def.kind(), start]);
        assemble(texts, &rows[..names], &rows[names..names + strings], &pool, &definitions.collect::<Words>())
    }
}

/// Five sections and their trailer.
pub fn assemble(texts: Vec<u8>, names: &[u32], strings: &[u32], pool: &[u32], definitions: &[u32]) -> Vec<u8> {
    let mut image = texts;
    let mut trailer = Words::new();
    for section in [names, strings, pool, definitions] {
        trailer.push(image.len() as u32);
        image.extend(section.iter().flat_map(|word| word.to_le_bytes()));
    }
    trailer.extend([1, image.len() as u32 + 24]);
    image.extend(trailer.iter().flat_map(|word| word.to_le_bytes()));
    image
}

impl Def {
    fn kind(&self) -> u32 {
        match self {
            Def::Other => 0,
            Def::Message(_) => 1,
            Def::Alias(..) => 2,
            Def::Trait(_) => 3,
            Def::Impl(_) => 4,
        }
    }

    fn write(&self, pool: &mut Words) {
        match self {
            Def::Other => {}
            Def::Message(fields) => write_pairs(fields, pool),
            Def::Alias(params, target) => {
                pool.push(params.len() as u32);
                pool.extend(params);
                pool.extend(target);
            }
            Def::Trait(def) => {
                pool.extend([def.name, def.params.len() as u32]);
                pool.extend(&def.params);
                pool.push(def.functions.len() as u32);
                for function in &def.functions {
                    pool.push(function.name);
                    write_pairs(&function.params, pool);
                    pool.extend(&function.returns);
                }
            }
            Def::Impl(def) => {
                pool.extend([def.of, def.trait_name]);
                pool.extend(&def.target);
                pool.push(def.arguments.len() as u32);
                pool.extend(def.arguments.iter().flatten());
                pool.push(def.functions.len() as u32);
                def.functions.iter().for_each(|function| function.write(pool));
            }
        }
    }
}

impl ImplFn {
    fn write(&self, pool: &mut Words) {
        pool.push(self.name);
        write_pairs(&self.params, pool);
        pool.push(self.returns.is_some().into());
        pool.extend(self.returns.iter().flatten());
        pool.push(self.body.is_some().into());
        if let Some(statements) = &self.body {
            pool.push(statements.len() as u32);
            pool.extend(statements.iter().flatten());
        }
    }
}

fn write_pairs(pairs: &[(u32, Words)], pool: &mut Words) {
    pool.push(pairs.len() as u32);
    for (name, run) in pairs {
        pool.push(*name);
        pool.extend(run);
    }
}

enum Layout<'a> {
    Plain,
    Shared,
    Loose(&'a mut Rng),
}

impl Layout<'_> {
    fn order(&mut self, count: usize) -> Vec<usize> {
        let mut order: Vec<usize> = (0..count).collect();
        if let Layout::Loose(rng) = self {
            rng.shuffle(&mut order);
        }
        order
    }

    /// Items that no row reads.
    fn gap<T: Copy>(&mut self, section: &mut Vec<T>, free: T) {
        if let Layout::Loose(rng) = self {
            if rng.chance(8) {
                section.extend((0..rng.between(1, 3)).map(|_| free));
            }
        }
    }

    /// Where a row's items stand: behind the others or, when shared and at times when loose, where they happen to stand already.
    fn place<T: Copy + PartialEq>(&mut self, section: &mut Vec<T>, items: &[T], free: T) -> u32 {
        let shared = match self {
            Layout::Plain => false,
            Layout::Shared => true,
            Layout::Loose(rng) => rng.chance(50),
        };
        if shared {
            if let Some(start) = section.windows(items.len().max(1)).position(|window| window.starts_with(items)) {
                return start as u32;
            }
        }
        self.gap(section, free);
        let start = section.len() as u32;
        section.extend(items);
        start
    }
}
