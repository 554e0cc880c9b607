//! The smallest model with a message, a trait and an implementation: the base for edges, where sizes are exact.

use super::model::{Def, ImplDef, ImplFn, Model, TraitDef, TraitFn, Words, NONE};
use super::rich::Rich;

/// Name rows.
pub const F: u32 = 0;
pub const M: u32 = 1;
pub const T: u32 = 2;
pub const P: u32 = 3;
pub const X: u32 = 4;

/// Definition rows.
pub const MESSAGE: u32 = 0;
pub const TRAIT: u32 = 1;
pub const IMPL: u32 = 2;

/// `message M { x: u8 }`, `trait T { fn f(p: u8) }`, `impl T for M { fn f(p: u8) { .. } }`.
pub fn with_body(params: &[(u32, Words)], returns: Option<Words>, body: Vec<Words>) -> Rich {
    let mut model = Model::default();
    for (text, def) in [("f", NONE), ("M", MESSAGE), ("T", TRAIT), ("p", NONE), ("x", NONE)] {
        model.add_name(text.into(), def);
    }
    model.strings = vec![b"".to_vec(), b"text".to_vec()];
    let written = returns.as_ref().map_or(vec![0], |run| [vec![1], run.clone()].concat());
    let declared = TraitFn { name: F, params: params.to_vec(), returns: written };
    let function = ImplFn { name: F, params: params.to_vec(), returns, body: Some(body) };
    model.defs = vec![
        Def::Message(vec![(X, vec![1])]),
        Def::Trait(TraitDef { name: T, params: vec![], functions: vec![declared] }),
        Def::Impl(ImplDef {
            of: TRAIT,
            trait_name: T,
            target: vec![48, MESSAGE],
            arguments: vec![],
            functions: vec![function],
        }),
    ];
    Rich { model, row: IMPL }
}

pub fn tiny() -> Rich {
    with_body(&[(P, vec![1])], None, vec![vec![3, 7, X, 6, 5, P]])
}

/// Pads an image's texts with bytes that no row reads, up to a length.
pub fn padded(image: &[u8], length: usize) -> Vec<u8> {
    let more = length - image.len();
    let mut padded = vec![b'~'; more];
    padded.extend(image);
    // Every start moves, and every text start with its bytes.
    let trailer = length - 24;
    let word = |bytes: &[u8], at: usize| u32::from_le_bytes(bytes[at..at + 4].try_into().unwrap());
    let add = |bytes: &mut [u8], at: usize| {
        let moved = word(bytes, at) + more as u32;
        bytes[at..at + 4].copy_from_slice(&moved.to_le_bytes());
    };
    for index in [0, 1, 2, 3, 5] {
        add(&mut padded, trailer + 4 * index);
    }
    let [names, strings, pool] = [0, 4, 8].map(|at| word(&padded, trailer + at) as usize);
    for row in (names..strings).step_by(16).chain((strings..pool).step_by(8)) {
        add(&mut padded, row);
    }
    padded
}
