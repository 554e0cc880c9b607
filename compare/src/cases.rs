//! The file of stored cases, vectors/cases.bin; vectors/README.md has the format.

use std::rc::Rc;

use crate::case::{Case, Whole};
use crate::second::{Answer, Call};

/// Words of a case before its bytes.
const HEADER: usize = 12;

/// More than any case lends: a damaged length must not be allocated.
const MOST_LENT: u32 = 1 << 24;

pub fn to_bytes(cases: &[(Case, Whole)]) -> Vec<u8> {
    let mut bytes = (cases.len() as u32).to_le_bytes().to_vec();
    for (case, whole) in cases {
        let a = &whole.answer;
        let lengths = [case.output, case.detail, case.image.len()].map(|length| length as u32);
        let header = [&[case.call as u32, case.row], lengths.as_slice()].concat();
        let five = [a.number, a.function, a.second, a.length, a.visits];
        let written = [whole.output.len() as u32, whole.detail.len() as u32];
        for word in header.iter().chain(&five).chain(&written) {
            bytes.extend(word.to_le_bytes());
        }
        bytes.extend_from_slice(&case.image);
        bytes.extend(&whole.output);
        bytes.extend(&whole.detail);
    }
    bytes
}

/// The cases of a file, or what is wrong with it.
pub fn from_bytes(bytes: &[u8]) -> Result<Vec<(Case, Whole)>, String> {
    let mut rest = Rest(bytes);
    let count = rest.word().ok_or("it has no count of cases")?;
    let mut cases = vec![];
    for number in 0..count {
        cases.push(rest.case().ok_or(format!("case {number} of {count} is damaged or cut off"))?);
    }
    match rest.0.len() {
        0 => Ok(cases),
        more => Err(format!("{more} bytes stand behind the last of {count} cases")),
    }
}

struct Rest<'a>(&'a [u8]);

impl<'a> Rest<'a> {
    fn bytes(&mut self, count: usize) -> Option<&'a [u8]> {
        let (bytes, rest) = self.0.split_at_checked(count)?;
        self.0 = rest;
        Some(bytes)
    }

    fn word(&mut self) -> Option<u32> {
        Some(u32::from_le_bytes(self.bytes(4)?.try_into().ok()?))
    }

    fn case(&mut self) -> Option<(Case, Whole)> {
        let mut header = [0; HEADER];
        for word in &mut header {
            *word = self.word()?;
        }
        let [call, row, output, detail, length, number, function, second, answered, visits, written, told] = header;
        let call = match call {
            0 => Call::ProjectImpl,
            1 => Call::ExpectedSignatures,
            _ => return None,
        };
        if number > 24 || written > output || told > detail || output.max(detail) > MOST_LENT {
            return None;
        }
        let image: Rc<[u8]> = self.bytes(length as usize)?.into();
        let whole = Whole {
            answer: Answer { number, function, second, length: answered, visits },
            output: self.bytes(written as usize)?.to_vec(),
            detail: self.bytes(told as usize)?.to_vec(),
        };
        Some((Case { call, image, row, output: output as usize, detail: detail as usize }, whole))
    }
}

#[cfg(test)]
mod tests {
    use super::*;

    fn sample() -> Vec<u8> {
        let answer = Answer { number: 20, function: 3, second: u32::MAX, length: 0, visits: 0 };
        let whole = Whole { answer, output: vec![], detail: vec![1, 2, 3, 4] };
        let case = Case { call: Call::ProjectImpl, image: vec![7; 30].into(), row: 2, output: 9, detail: 600 };
        to_bytes(&[(case.clone(), whole.clone()), (case, whole)])
    }

    #[test]
    fn a_file_reads_back() {
        let cases = from_bytes(&sample()).ok().unwrap();
        assert_eq!(to_bytes(&cases), sample());
    }

    #[test]
    fn a_cut_or_longer_file_is_refused() {
        let bytes = sample();
        for length in 0..bytes.len() {
            assert!(from_bytes(&bytes[..length]).is_err());
        }
        assert!(from_bytes(&[bytes, vec![0]].concat()).is_err());
    }
}
