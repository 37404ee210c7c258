//! What the tests share: seeded inputs, and simple readings of the rules, written from `docs/FORMAT.md` and not from the library.
#![allow(dead_code)]

pub mod inputs;
pub mod readings;

use mallettriton::{jcal_to_text_into, to_jcal_into, to_text_into, to_xml_folded_into, to_xml_into, Answer, Edition};

/// What the bytes of a buffer are before a call.
pub const FILL: u8 = 0xa5;

/// An answer that borrows nothing.
#[derive(Clone, Debug, PartialEq, Eq)]
pub enum Told {
    Written(Vec<u8>),
    Needs(usize),
    Refused(u8, usize),
}

impl From<Answer<'_>> for Told {
    fn from(answer: Answer<'_>) -> Told {
        match answer {
            Answer::Written(result) => Told::Written(result.to_vec()),
            Answer::Needs(length) => Told::Needs(length),
            Answer::Refused(refusal) => Told::Refused(refusal.number as u8, refusal.place),
            other => unreachable!("{other:?}"),
        }
    }
}

/// The answer with a work room and an output of the given lengths, which are then held to the promises that do not hang on the input:
/// only `Written` changes the output, and only its first bytes.
pub fn to_xml_in(input: &[u8], work_length: usize, out_length: usize) -> (Told, Vec<u8>) {
    let (mut work, mut out) = (vec![FILL; work_length], vec![FILL; out_length]);
    let told = Told::from(to_xml_into(input, &mut work, &mut out, Edition::Rfc5545));
    only_the_result(&told, &out);
    (told, work)
}

/// The same with the folds in place, and no work room.
pub fn to_xml_folded_in(input: &[u8], out_length: usize) -> Told {
    let mut out = vec![FILL; out_length];
    let told = Told::from(to_xml_folded_into(input, &mut out, Edition::Rfc5545));
    only_the_result(&told, &out);
    told
}

/// The same of the way to jCal.
pub fn to_jcal_in(input: &[u8], work_length: usize, out_length: usize) -> (Told, Vec<u8>) {
    let (mut work, mut out) = (vec![FILL; work_length], vec![FILL; out_length]);
    let told = Told::from(to_jcal_into(input, &mut work, &mut out, Edition::Rfc5545));
    only_the_result(&told, &out);
    (told, work)
}

/// The same of the way to text.
pub fn to_text_in(input: &[u8], out_length: usize) -> Told {
    let mut out = vec![FILL; out_length];
    let told = Told::from(to_text_into(input, &mut out, Edition::Rfc5545));
    only_the_result(&told, &out);
    told
}

/// The same of the way from jCal to text.
pub fn jcal_to_text_in(input: &[u8], out_length: usize) -> Told {
    let mut out = vec![FILL; out_length];
    let told = Told::from(jcal_to_text_into(input, &mut out, Edition::Rfc5545));
    only_the_result(&told, &out);
    told
}

fn only_the_result(told: &Told, out: &[u8]) {
    let written = match told {
        Told::Written(result) => result.len(),
        _ => 0,
    };
    assert!(out[written..].iter().all(|byte| *byte == FILL), "bytes behind the result have changed: {told:?}");
}

/// `convert` answers with an output of any length what it should, given its answer with ample room: the same refusal, or the same bytes wherever they fit, and where they
/// do not their exact length.
pub fn in_every_room(ample: &Told, convert: impl Fn(usize) -> Told) {
    match ample {
        Told::Written(result) => {
            let length = result.len();
            for shorter in [0, length - 1] {
                assert_eq!(convert(shorter), Told::Needs(length));
            }
            assert_eq!(convert(length), *ample);
        }
        Told::Needs(length) => panic!("{length} bytes needed where there was ample room"),
        Told::Refused(..) => {
            for length in [0, 1000] {
                assert_eq!(convert(length), *ample);
            }
        }
    }
}

/// A room in which every result fits: no byte of text gives more than 32 of XML.
pub fn ample(input: &[u8]) -> usize {
    32 * input.len() + 1024
}
