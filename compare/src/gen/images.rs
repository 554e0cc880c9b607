//! Seeded images, each with where it comes from.

use super::alike::{alike, End};
use super::bounds::BOUNDS;
use super::damage::damage;
use super::deep;
use super::edges::edges;
use super::halves;
use super::held;
use super::large;
use super::model::Model;
use super::nested;
use super::rich::{implement, rich, Rich};
use super::rng::Rng;
use super::utf8;

#[derive(Clone, Copy, PartialEq, Eq, PartialOrd, Ord)]
pub enum Source {
    /// Always the same.
    Edge,
    /// Always the same: as many names as can be, alike but for their ends.
    Alike,
    Rich,
    /// Rich, with something at its bound or one past it.
    Bound,
    /// Rich or small, with something that nests as deep as it can.
    Deep,
    /// Rich or small, with qualified names for which there is a row, or nearly.
    Halves,
    /// Rich or about qualified names, with texts that leave ASCII behind; some with a byte of a text or a row's place changed.
    Utf8,
    /// Rich or small, with poison at any depth and what looks like it, types of 64 words and types that differ in one word.
    Held,
    Damaged,
}

pub struct Made {
    pub source: Source,
    pub image: Vec<u8>,
    /// The implementation that the image was made for.
    pub row: u32,
    /// The number of definitions.
    pub rows: u32,
}

/// Numbers that an image is aimed at. Some are also met on the way to others.
const AIMS: [u32; 28] =
    [0, 0, 0, 4, 5, 6, 6, 7, 7, 8, 8, 9, 10, 11, 12, 13, 14, 15, 16, 17, 18, 19, 20, 20, 21, 21, 22, 23];

/// Images of one kind between the others.
struct Family {
    /// So many of a hundred.
    share: usize,
    make: fn(&mut Rng) -> Made,
    /// What makes its seed of the others': another for each family, and not 0.
    mask: u64,
}

const FAMILIES: [Family; 4] = [
    Family { share: 4, make: make_deep, mask: u64::MAX },
    Family { share: 4, make: make_halves, mask: u64::MAX / 3 },
    Family { share: 8, make: make_utf8, mask: u64::MAX / 5 },
    Family { share: 6, make: make_held, mask: u64::MAX / 17 },
];

/// Makes images from a seed. A family has a stream of numbers of its own: the others are the same without it.
pub struct Maker {
    rng: Rng,
    families: Vec<(Rng, Family)>,
}

impl Maker {
    pub fn new(seed: u64) -> Self {
        Maker { rng: Rng::new(seed), families: vec![] }
    }

    pub fn with_families(seed: u64) -> Self {
        let families = FAMILIES.map(|family| (Rng::new(seed ^ family.mask), family));
        Maker { rng: Rng::new(seed), families: families.into() }
    }

    /// An image, and the numbers that it was made of.
    pub fn make(&mut self) -> (Made, &mut Rng) {
        for (rng, family) in &mut self.families {
            if rng.chance(family.share) {
                return ((family.make)(rng), rng);
            }
        }
        (make(&mut self.rng), &mut self.rng)
    }
}

fn make(rng: &mut Rng) -> Made {
    let kind = rng.below(100);
    let (source, aim) = match kind {
        0..8 => (Source::Rich, None),
        8..14 => (Source::Bound, Some(0)),
        14..88 => (Source::Rich, Some(*rng.pick(&AIMS))),
        _ => (Source::Damaged, Some(*rng.pick(&AIMS))),
    };
    let bulk = if rng.below(500) == 0 { rng.between(5, 60) } else { 0 };
    let mut rich = rich(rng, aim, bulk);
    if source == Source::Bound {
        let (_, bound) = rng.pick(&BOUNDS);
        let past = rng.below(2);
        bound(rng, &mut rich, past);
    }
    if rng.chance(1) {
        broken_texts(rng, &mut rich.model);
    }
    let mut image = if rng.chance(70) { rich.model.loose_image(rng) } else { rich.model.plain_image() };
    if source == Source::Damaged {
        damage(rng, &mut image);
    }
    Made { source, image, row: rich.row, rows: rich.model.defs.len() as u32 }
}

/// A type expression or a value that nests deep.
fn make_deep(rng: &mut Rng) -> Made {
    let rich = if rng.chance(30) {
        nested::any(rng)
    } else {
        let mut rich = rich(rng, Some(0), 0);
        let expression = deep::any(rng, &mut rich.model);
        large::place(rng, &mut rich.model, rich.row, expression);
        implement(rng, &mut rich.model, rich.row, Some(0));
        rich
    };
    laid_out(rng, Source::Deep, &rich)
}

/// Qualified names, sometimes with something else that is refused.
fn make_halves(rng: &mut Rng) -> Made {
    let aim = if rng.chance(70) { 0 } else { *rng.pick(&AIMS) };
    let rich = halves::any(rng, aim);
    laid_out(rng, Source::Halves, &rich)
}

/// Texts that leave ASCII behind, as they should be or with something changed in them.
fn make_utf8(rng: &mut Rng) -> Made {
    let aim = if rng.chance(50) { 0 } else { *rng.pick(&AIMS) };
    let rich = utf8::any(rng, aim);
    let mut made = laid_out(rng, Source::Utf8, &rich);
    if made.source == Source::Utf8 {
        utf8::fill_free(rng, &mut made.image);
        if rng.chance(45) {
            utf8::disturb(rng, &mut made.image);
        }
    }
    made
}

/// Types that are held, sometimes with something else that is refused.
fn make_held(rng: &mut Rng) -> Made {
    let aim = if rng.chance(80) { 0 } else { *rng.pick(&AIMS) };
    let rich = held::any(rng, aim);
    laid_out(rng, Source::Held, &rich)
}

/// The image of a family's model; now and then damaged.
fn laid_out(rng: &mut Rng, source: Source, Rich { model, row }: &Rich) -> Made {
    let mut image = if rng.chance(70) { model.loose_image(rng) } else { model.plain_image() };
    let damaged = rng.chance(12);
    if damaged {
        damage(rng, &mut image);
    }
    let source = if damaged { Source::Damaged } else { source };
    Made { source, image, row: *row, rows: model.defs.len() as u32 }
}

/// A name's text that is not UTF-8, and often a string's.
fn broken_texts(rng: &mut Rng, model: &mut Model) {
    let name = rng.below(model.names.len());
    model.names[name].text.push(128 + rng.below(128) as u8);
    if let Some(text) = model.strings.first_mut() {
        text.push(rng.next() as u8);
    }
}

/// Images without end: those that are always the same, then from a seed, each with a damaged copy of it and of an edge.
pub fn images(seed: u64) -> impl Iterator<Item = (Source, Vec<u8>)> {
    let edges: Vec<Vec<u8>> = edges().into_iter().map(|edge| edge.image).collect();
    let alikes = [End::OneByte, End::NoSum].into_iter().flat_map(|end| [false, true].map(|twice| alike(end, twice)));
    let (mut maker, near) = (Maker::with_families(seed), edges.clone());
    let seeded = std::iter::repeat_with(move || {
        let (made, rng) = maker.make();
        let (mut copy, mut edge) = (made.image.clone(), rng.pick(&near).clone());
        damage(rng, &mut copy);
        damage(rng, &mut edge);
        [(made.source, made.image), (Source::Damaged, copy), (Source::Damaged, edge)]
    });
    let edges = edges.into_iter().map(|image| (Source::Edge, image));
    edges.chain(alikes.map(|image| (Source::Alike, image))).chain(seeded.flatten())
}
