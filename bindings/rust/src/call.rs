//! A call with buffers of its own.

use crate::decode;
use crate::linked::Call;
use crate::words;
use crate::{Accepted, PortableFunctionError, TypeId};

/// The least detail with which 1 is never the answer.
const DETAIL_BYTES: usize = 576;

/// Most outputs fit; a longer one is asked for again with the room that it needs.
pub const FIRST_ROOM: usize = 4096;

/// Asks, and on 24 once more with the room that is needed.
pub fn ask(call: Call, image: &[u8], number: TypeId) -> Result<Accepted, PortableFunctionError> {
    match once(call, image, number, FIRST_ROOM) {
        Err(PortableFunctionError::OutputTooShort { needed }) => once(call, image, number, needed as usize),
        answered => answered,
    }
}

/// Asks with so many bytes of output.
fn once(call: Call, image: &[u8], number: TypeId, room: usize) -> Result<Accepted, PortableFunctionError> {
    let mut output = vec![0; room];
    let mut detail = [0; DETAIL_BYTES];
    let Ok(answer) = call.ask(image, number.0, &mut output, &mut detail) else {
        return Err(PortableFunctionError::NoThread);
    };
    let [number, _, _, length, visits] = answer;
    if number != 0 {
        return Err(decode::refusal(answer, &words::of_bytes(&detail)));
    }
    match output.get(..length as usize) {
        Some(written) => Ok(Accepted { words: words::of_bytes(written), visits }),
        None => Err(PortableFunctionError::UnknownAnswer { answer }),
    }
}

#[cfg(test)]
mod tests {
    use super::*;

    const SAMPLE: &[u8] = include_bytes!("../../../samples/getgm.image");

    #[test]
    fn a_short_output_is_an_error_value() {
        for room in 0..20 {
            let answer = once(Call::ExpectedSignatures, SAMPLE, TypeId(2), room);
            assert_eq!(answer, Err(PortableFunctionError::OutputTooShort { needed: 20 }));
        }
        let answer = once(Call::ExpectedSignatures, SAMPLE, TypeId(2), 20);
        assert_eq!(answer, Ok(Accepted { words: vec![1, 0, 0, 1, 1], visits: 1 }));
    }
}
