//! The library asked through the crate, and decoding by itself.

mod images;
pub mod stored;

use std::thread;

use crate::linked::Call;
use crate::{call, decode, Accepted, PortableFunctionError, TypeId};

const CALLS: &[Call] = &[Call::ProjectImpl, Call::ExpectedSignatures];

const SAMPLE: &[u8] = include_bytes!("../../../../samples/getgm.image");

/// Runs on a thread of so many bytes; the system may give it some more.
pub fn on_thread_of<T: Send>(bytes: usize, run: impl FnOnce() -> T + Send) -> T {
    thread::scope(|scope| thread::Builder::new().stack_size(bytes).spawn_scoped(scope, run).unwrap().join().unwrap())
}

#[test]
fn the_sample_has_its_signatures() {
    let answer = crate::expected_signatures(SAMPLE, TypeId(2));
    assert_eq!(answer, Ok(Accepted { words: vec![1, 0, 0, 1, 1], visits: 1 }));
}

#[test]
fn the_sample_has_its_body() {
    let answer = crate::project_impl(SAMPLE, TypeId(2));
    assert_eq!(answer, Ok(Accepted { words: vec![1, 0, 0, 1, 1, 1, 2, 1, 1, 0, 5, 0], visits: 1 }));
}

#[test]
fn other_numbers_are_no_implementation() {
    for &call in CALLS {
        for number in [0, 1, 3, 255, 256, u32::MAX - 1, u32::MAX] {
            let answer = call::ask(call, SAMPLE, TypeId(number));
            assert_eq!(answer, Err(PortableFunctionError::NoImplementation));
        }
    }
}

#[test]
fn what_is_no_image_is_unreadable() {
    let long = [SAMPLE, &[0; 65_536]].concat();
    let mut random = images::Random(1);
    for &call in CALLS {
        for image in [&[], &SAMPLE[1..], &SAMPLE[..SAMPLE.len() - 1], &long] {
            assert_eq!(call::ask(call, image, TypeId(2)), Err(PortableFunctionError::UnreadableImage));
        }
        for length in 0..300 {
            let image: Vec<u8> = (0..length).map(|_| random.below(256) as u8).collect();
            assert_eq!(call::ask(call, &image, TypeId(0)), Err(PortableFunctionError::UnreadableImage));
        }
    }
}

#[test]
fn a_damaged_image_has_an_answer() {
    let mut random = images::Random(2);
    for &call in CALLS {
        for _ in 0..300 {
            let mut image = SAMPLE.to_vec();
            image[random.below(SAMPLE.len())] = random.below(256) as u8;
            match call::ask(call, &image, TypeId(2)) {
                Ok(accepted) => assert!(!accepted.words.is_empty()),
                Err(refusal) => assert!(matches!(refusal.number(), Some(2..=23)), "{refusal}"),
            }
        }
    }
}

#[test]
fn an_output_past_the_first_room_is_asked_for_again() {
    let answer = crate::expected_signatures(&images::wide_trait(), TypeId(1));
    let mut words = vec![64];
    for name in 0..64 {
        words.extend([name, 32]);
        words.extend([name, 1].repeat(32));
        words.push(0);
    }
    assert!(4 * words.len() > call::FIRST_ROOM);
    assert_eq!(answer, Ok(Accepted { words, visits: 64 * 32 }));
}

#[test]
fn stored_cases_are_answered_alike() {
    let mut asked = 0;
    for case in stored::cases() {
        let call = match case.call {
            0 => Call::ProjectImpl,
            1 => Call::ExpectedSignatures,
            _ => continue,
        };
        asked += 1;
        let answer = call::ask(call, &case.image, TypeId(case.row));
        let [number, _, _, length, visits] = case.answer;
        match number {
            0 => assert_eq!(answer, Ok(Accepted { words: case.output, visits }), "{}", case.label),
            // The crate lends more than the case did: 1 and 24 do not come to its callers.
            1 => assert!(!matches!(answer.map_err(|refusal| refusal.number()), Err(None | Some(1 | 24)))),
            24 => assert_eq!(answer.map(|accepted| accepted.words.len()), Ok(length as usize / 4), "{}", case.label),
            _ => assert_eq!(answer.map_err(|refusal| stored::told(&refusal)), Err(case.told()), "{}", case.label),
        }
    }
    assert!(asked > 90);
}

#[test]
fn stored_refusals_are_decoded() {
    let mut numbers = Vec::new();
    for case in stored::cases() {
        let [number, ..] = case.answer;
        if matches!(number, 2..=23) {
            // As a call finds it: what is behind the detail's words is not theirs.
            let lent = [case.detail.as_slice(), &[0x5555_5555; 144]].concat();
            assert_eq!(stored::told(&decode::refusal(case.answer, &lent[..144])), case.told(), "{}", case.label);
            numbers.push(number);
        }
    }
    numbers.sort_unstable();
    numbers.dedup();
    assert_eq!(numbers, Vec::from_iter(2..=23));
}

#[test]
fn every_detail_code_is_decoded() {
    const NONE: u32 = u32::MAX;
    let mut details = vec![
        (6, NONE, vec![0, 1, 2]),
        (6, NONE, vec![1, 1, 2]),
        (6, NONE, vec![2, 1, 2]),
        (6, 9, vec![3, 64, 1, 2]),
        (6, NONE, vec![4, 0, 1, 48, 0]),
        (6, NONE, vec![4, 1, 48, 0, 0]),
    ];
    details.extend((0..8).map(|context| (20, NONE, vec![context, 64, 1, 16, 1, 7])));
    details.extend((0..12).map(|operator| (21, NONE, vec![operator, 48, 3])));
    details.extend((0..3).map(|detail| (22, NONE, vec![detail])));
    for (number, second, words) in details {
        let refusal = decode::refusal([number, 0, second, 0, 0], &words);
        assert_eq!(stored::told(&refusal), ([number, 0, second], words));
    }
    for (number, past) in [(6, 5), (20, 8), (21, 12), (22, 3)] {
        let answer = [number, 0, 9, 0, 0];
        assert_eq!(decode::refusal(answer, &[past, 1, 1]), PortableFunctionError::UnknownAnswer { answer });
    }
}

#[test]
fn words_that_are_no_refusal_are_an_error_value() {
    let mut random = images::Random(3);
    for number in 0..30 {
        for _ in 0..1_000 {
            let name = [random.below(4) as u32, u32::MAX];
            let answer = [number, name[random.below(2)], name[random.below(2)], 0, 0];
            let detail: Vec<u32> = (0..random.below(144)).map(|_| random.below(90) as u32).collect();
            let refusal = decode::refusal(answer, &detail);
            match refusal.number() {
                Some(told) => assert_eq!(told, number),
                None => assert_eq!(refusal, PortableFunctionError::UnknownAnswer { answer }),
            }
        }
    }
    for number in [0, 1, 25, u32::MAX] {
        let answer = [number, 0, 0, 0, 0];
        assert_eq!(decode::refusal(answer, &[]), PortableFunctionError::UnknownAnswer { answer });
    }
}
