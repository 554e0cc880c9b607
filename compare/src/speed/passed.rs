//! What a row costs that a qualified look-up passes over, in instructions.

use std::fmt::Write;

use super::{Asked, Figure, Group};
use crate::gen::{self, Passed};
use crate::second::Call;

/// What stands for a seed where these groups are counted.
pub const WORD: &str = "rows";

/// `project_impl` looks a parameter's qualified name up for the signature, and again for the body's locals.
const LOOK_UPS: usize = 2;

/// Of each kind of rows the image whose row is in front of them, and the one whose row is behind.
pub(super) fn groups() -> Vec<Group> {
    let group = |kind, image| {
        let asked = vec![Asked::new(image, gen::PASSED_ROW)];
        Group { call: Call::ProjectImpl, kind, asked }
    };
    gen::passed().into_iter().flat_map(|Passed { kind, images }| images.map(|image| group(kind, image))).collect()
}

/// Of each kind what one row costs: the two differ by all its rows.
pub fn table(figures: &[Figure]) -> String {
    let mut text = String::from("the library's instructions for a row that a qualified look-up passes over\n");
    for pair in figures.chunks(2) {
        let [front, behind] = pair else { continue };
        let row = (behind.cost[0] - front.cost[0]) / (gen::PASSED_ROWS * LOOK_UPS) as f64;
        let _ = writeln!(text, "{row:7.2}  {}", front.kind);
    }
    text
}
