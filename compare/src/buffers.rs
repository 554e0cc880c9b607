//! The two lent buffers: filled before a call, and with canaries on both sides of what is lent.

use crate::case::Case;
use crate::second::{Answer, Call};

/// What every lent byte is before a call.
pub const OUTPUT_FILL: u8 = 170;
pub const DETAIL_FILL: u8 = 85;

const CANARY: u8 = 204;
const MARGIN: usize = 64;

/// Something that answers a call as document 01 says, or an error where it touches what is not lent to it.
pub type Side = fn(Call, &[u8], u32, &mut [u8], &mut [u8]) -> Result<Answer, String>;

#[derive(Default)]
pub struct Buffers {
    output: Vec<u8>,
    detail: Vec<u8>,
}

impl Buffers {
    /// Asks a side; the buffers then hold what it left. An error if it wrote beside them.
    pub fn ask(&mut self, side: Side, case: &Case) -> Result<Answer, String> {
        lend(&mut self.output, case.output, OUTPUT_FILL);
        lend(&mut self.detail, case.detail, DETAIL_FILL);
        let (output, detail) = (inner(&mut self.output), inner(&mut self.detail));
        let answer = side(case.call, &case.image, case.row, output, detail)?;
        match [&self.output, &self.detail].iter().all(|buffer| untouched(buffer)) {
            true => Ok(answer),
            false => Err("a canary beside a lent buffer is changed".into()),
        }
    }

    pub fn output(&self) -> &[u8] {
        &self.output[MARGIN..self.output.len() - MARGIN]
    }

    pub fn detail(&self) -> &[u8] {
        &self.detail[MARGIN..self.detail.len() - MARGIN]
    }
}

fn lend(buffer: &mut Vec<u8>, length: usize, fill: u8) {
    buffer.clear();
    buffer.resize(MARGIN, CANARY);
    buffer.resize(MARGIN + length, fill);
    buffer.resize(MARGIN + length + MARGIN, CANARY);
}

fn inner(buffer: &mut [u8]) -> &mut [u8] {
    let end = buffer.len() - MARGIN;
    &mut buffer[MARGIN..end]
}

fn untouched(buffer: &[u8]) -> bool {
    let end = buffer.len() - MARGIN;
    buffer[..MARGIN].iter().chain(&buffer[end..]).all(|byte| *byte == CANARY)
}
