//! Text to jCal: the samples, and seeded calendars, whole and damaged. The way to XML gives the same refusals and leaves the same work room; the jCal is held to the canonical form.
mod common;

use common::inputs::{calendar, damaged, unfolded_text, with_folds, Random, TEXT_TOKENS};
use common::readings::assert_canonical_json;
use common::{ample, in_every_room, to_jcal_in, to_xml_in, Told, FILL};
use mallettriton::{to_jcal, Edition, Number, Refusal, LONGEST};

const SAMPLES: [(&[u8], &[u8]); 3] = [
    (include_bytes!("../../../samples/rota.ics"), include_bytes!("../../../samples/rota.json")),
    (include_bytes!("../../../samples/jobs.ics"), include_bytes!("../../../samples/jobs.json")),
    (include_bytes!("../../../samples/fleet.ics"), include_bytes!("../../../samples/fleet.json")),
];

/// The call on an input, with buffers of several lengths, beside the call to XML; its answer with ample room.
fn checked(input: &[u8]) -> Told {
    let (told, work) = to_jcal_in(input, input.len() + 3, ample(input));
    let (xml, work_of_xml) = to_xml_in(input, input.len() + 3, ample(input));
    assert_eq!(work, work_of_xml);
    match (&told, &xml) {
        (Told::Written(jcal), Told::Written(_)) => assert_canonical_json(jcal),
        (refused, other) => assert_eq!(refused, other),
    }

    in_every_room(&told, |length| to_jcal_in(input, input.len(), length).0);
    if !input.is_empty() {
        let (short, work) = to_jcal_in(input, input.len() - 1, 1000);
        assert_eq!(short, Told::Refused(2, 0));
        assert!(work.iter().all(|byte| *byte == FILL));
    }
    told
}

#[test]
fn the_samples_give_their_jcal() {
    for (text, jcal) in SAMPLES {
        assert_eq!(checked(text), Told::Written(jcal.to_vec()));
        assert_eq!(to_jcal(text, Edition::Rfc5545), Ok(jcal.to_vec()));
    }
}

#[test]
fn one_calendar_stands_alone_and_two_in_an_array() {
    let (text, jcal) = SAMPLES[0];
    let both = to_jcal(&text.repeat(2), Edition::Rfc5545).unwrap();
    assert_eq!(both, [b"[", jcal, b",", jcal, b"]"].concat());
}

#[test]
fn an_empty_text_has_no_calendar() {
    assert_eq!(checked(b""), Told::Refused(6, 0));
    assert_eq!(to_jcal(b"", Edition::Rfc5545), Err(Refusal { number: Number::Frame, place: 0 }));
}

#[test]
fn the_longest_input_is_taken_and_no_longer_one() {
    let front = b"BEGIN:VCALENDAR\r\nPRODID:".to_vec();
    let back = b"\r\nVERSION:2.0\r\nEND:VCALENDAR\r\n";
    let longest = [&front[..], &vec![b'"'; LONGEST - front.len() - back.len()], back].concat();
    assert!(matches!(checked(&longest), Told::Written(_)));
    let longer = [&front[..], &vec![b'"'; LONGEST + 1 - front.len() - back.len()], back].concat();
    assert_eq!(to_jcal(&longer, Edition::Rfc5545), Err(Refusal { number: Number::Length, place: 0 }));
}

#[test]
fn calendars_are_written_whatever_their_folds_are() {
    let mut r = Random::new(11);
    let mut accepted = 0;
    for _ in 0..1000 {
        let kept = unfolded_text(&calendar(&mut r));
        let told = checked(&kept);
        if let Told::Written(jcal) = &told {
            accepted += 1;
            let folded = with_folds(&mut r, &kept);
            assert_eq!(to_jcal(&folded, Edition::Rfc5545).as_ref(), Ok(jcal));
        }
    }
    assert!(accepted > 950, "{accepted} of 1000 accepted: the inputs are not what they should be");
}

#[test]
fn damaged_calendars_are_refused_as_to_xml() {
    let mut r = Random::new(12);
    for _ in 0..2000 {
        let kept = unfolded_text(&calendar(&mut r));
        let folded = if r.one_in(2) { with_folds(&mut r, &kept) } else { kept };
        checked(&damaged(&mut r, &folded, &TEXT_TOKENS));
    }
}
