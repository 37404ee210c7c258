//! jCal to text, and both ways in a row: seeded calendars, as canonical jCal, with white space and escapes, and damaged.
mod common;

use common::inputs::{calendar, damaged, unfolded_text, Random};
use common::readings::{assert_folded, bad_character};
use common::{ample, in_every_room, jcal_to_text_in, Told};
use mallettriton::{jcal_to_text, to_jcal, to_text, to_xml, Edition, Number, Refusal, LONGEST};

const SAMPLES: [(&[u8], &[u8]); 3] = [
    (include_bytes!("../../../samples/rota.ics"), include_bytes!("../../../samples/rota.json")),
    (include_bytes!("../../../samples/jobs.ics"), include_bytes!("../../../samples/jobs.json")),
    (include_bytes!("../../../samples/fleet.ics"), include_bytes!("../../../samples/fleet.json")),
];

/// What is put into jCal, or in the place of a byte of it, to damage it.
const TOKENS: [&str; 16] = ["[", "]", "{", "}", ",", ":", "\"", "\\", "\\u000d", " ", "0", "-1e5", "true", "null", "[]", "\"text\""];

/// The call on an input, with outputs of several lengths; its answer with ample room.
fn checked(input: &[u8]) -> Told {
    let told = jcal_to_text_in(input, ample(input));
    match (&told, bad_character(input)) {
        (Told::Refused(3, place), Some(bad)) => assert_eq!(*place, bad),
        (other, Some(bad)) => panic!("{other:?} for a bad character at {bad}"),
        (Told::Written(text), None) => assert_folded(text),
        (Told::Refused(number, place), None) => {
            assert!((5..=9).contains(number) || *number == 12, "refused {number} at {place}");
            match number {
                5 | 7 | 8 => assert_eq!(input[*place], b'[', "refused {number} at {place}"),
                9 => assert_eq!(input[*place], b']', "refused {number} at {place}"),
                _ => assert!(*place <= input.len()),
            }
        }
        (Told::Needs(length), None) => panic!("{length} bytes needed where there was ample room"),
    }
    in_every_room(&told, |length| jcal_to_text_in(input, length));
    told
}

/// The jCal of the next accepted calendar that is not too long to be read back, and its XML.
fn jcal(r: &mut Random) -> (Vec<u8>, Vec<u8>) {
    loop {
        let text = unfolded_text(&calendar(r));
        if let (Ok(jcal), Ok(xml)) = (to_jcal(&text, Edition::Rfc5545), to_xml(&text, Edition::Rfc5545)) {
            if jcal.len().max(xml.len()) <= LONGEST {
                return (jcal, xml);
            }
        }
    }
}

/// The same value with white space between its tokens, and some characters escaped.
fn rewritten(r: &mut Random, jcal: &[u8]) -> Vec<u8> {
    let mut other = Vec::new();
    let mut in_string = false;
    let mut at = 0;
    while at < jcal.len() {
        let byte = jcal[at];
        match byte {
            b'\\' => {
                other.extend([byte, jcal[at + 1]]);
                at += 1;
            }
            b'"' => {
                in_string = !in_string;
                other.push(byte);
            }
            _ if in_string && byte.is_ascii_alphanumeric() && r.one_in(9) => other.extend(format!("\\u{byte:04X}").bytes()),
            b'[' | b']' | b'{' | b'}' | b',' | b':' if !in_string => {
                other.extend(&b" \t\r\n"[..r.below(3)]);
                other.push(byte);
                other.extend(&b" \n"[..r.below(2)]);
            }
            _ => other.push(byte),
        }
        at += 1;
    }
    other
}

#[test]
fn the_samples_give_their_text() {
    for (text, jcal) in SAMPLES {
        assert_eq!(jcal_to_text(jcal, Edition::Rfc5545), to_text(&to_xml(text, Edition::Rfc5545).unwrap(), Edition::Rfc5545));
    }
    assert_eq!(checked(SAMPLES[0].1), Told::Written(SAMPLES[0].0.to_vec()));
}

#[test]
fn an_empty_text_is_no_json() {
    assert_eq!(checked(b""), Told::Refused(12, 0));
    assert_eq!(jcal_to_text(b"", Edition::Rfc5545), Err(Refusal { number: Number::Json, place: 0 }));
}

#[test]
fn thirty_two_arrays_are_open_at_once_and_no_more() {
    let nested = |depth: usize| format!("{}{}", "[".repeat(depth), "]".repeat(depth));
    assert_eq!(checked(nested(32).as_bytes()), Told::Refused(6, 1));
    assert_eq!(checked(nested(33).as_bytes()), Told::Refused(12, 32));
}

#[test]
fn the_longest_input_is_taken_and_no_longer_one() {
    let (front, back) = (r#"["vcalendar",[["version",{},"text","2.0"],["prodid",{},"text",""#, r#""]],[]]"#);
    let longest = format!("{front}{}{back}", "a".repeat(LONGEST - front.len() - back.len()));
    assert!(matches!(checked(longest.as_bytes()), Told::Written(_)));
    assert_eq!(jcal_to_text(format!("{longest} ").as_bytes(), Edition::Rfc5545), Err(Refusal { number: Number::Length, place: 0 }));
}

#[test]
fn calendars_come_back_unchanged() {
    let mut r = Random::new(13);
    for _ in 0..500 {
        let (jcal, xml) = jcal(&mut r);
        let Told::Written(back) = checked(&jcal) else {
            panic!("the jCal of an accepted text is refused: {}", String::from_utf8_lossy(&jcal));
        };
        assert_eq!(to_text(&xml, Edition::Rfc5545).as_ref(), Ok(&back), "of {}", String::from_utf8_lossy(&jcal));
        assert_eq!(to_jcal(&back, Edition::Rfc5545).as_ref(), Ok(&jcal));
    }
}

#[test]
fn a_calendar_may_be_written_in_many_ways() {
    let mut r = Random::new(14);
    for _ in 0..500 {
        let (jcal, _) = jcal(&mut r);
        let other = rewritten(&mut r, &jcal);
        if other.len() <= LONGEST {
            assert_eq!(checked(&other), Told::Written(jcal_to_text(&jcal, Edition::Rfc5545).unwrap()), "of {}", String::from_utf8_lossy(&other));
        }
    }
}

#[test]
fn damaged_jcal_has_an_answer() {
    let mut r = Random::new(15);
    for _ in 0..2000 {
        let (jcal, _) = jcal(&mut r);
        if let Told::Written(text) = checked(&damaged(&mut r, &jcal, &TOKENS)) {
            let again = to_jcal(&text, Edition::Rfc5545).expect("canonical text is accepted");
            assert_eq!(jcal_to_text(&again, Edition::Rfc5545).as_ref(), Ok(&text));
        }
    }
}
