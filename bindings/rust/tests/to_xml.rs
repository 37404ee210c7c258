//! Text to XML: the samples, and seeded calendars, whole and damaged, against simple readings of the rules.
mod common;

use common::inputs::{calendar, damaged, unfolded_text, with_folds, Random, TEXT_TOKENS};
use common::readings::{assert_canonical, bad_character, kept_of, reading, unfolded};
use common::{ample, in_every_room, to_xml_folded_in, to_xml_in, Told, FILL};
use mallettriton::{to_xml, Edition, Number, Refusal, LONGEST};

const SAMPLE: &[u8] = include_bytes!("../../../samples/rota.ics");
const SAMPLE_XML: &[u8] = include_bytes!("../../../samples/rota.xml");

/// The call on an input, with buffers of several lengths, against the readings; its answer with ample room.
fn checked(input: &[u8]) -> Told {
    let (told, work) = to_xml_in(input, input.len() + 3, ample(input));

    let kept = kept_of(input);
    assert_eq!(work[..kept.len()], kept, "the work room begins with the unfolded input");
    assert!(work[kept.len()..].iter().all(|byte| *byte == FILL), "and its other bytes are as they were");

    let bad = bad_character(&kept).map(|at| unfolded(input)[at].0);
    match (&told, bad) {
        (Told::Refused(3, place), Some(bad)) => assert_eq!(*place, bad),
        (_, None) => against_lines(input, &told),
        (other, Some(bad)) => panic!("{other:?} for a bad character at {bad}"),
    }

    in_every_room(&told, |length| to_xml_in(input, input.len(), length).0);
    assert_eq!(to_xml_folded_in(input, ample(input)), told, "the same with the folds in place");
    in_every_room(&told, |length| to_xml_folded_in(input, length));
    if !input.is_empty() {
        let (short, work) = to_xml_in(input, input.len() - 1, 1000);
        assert_eq!(short, Told::Refused(2, 0));
        assert!(work.iter().all(|byte| *byte == FILL));
    }
    told
}

/// The answer on a text of good characters, against what can be told of its lines.
fn against_lines(input: &[u8], told: &Told) {
    let reading = reading(input);
    match told {
        Told::Written(xml) => {
            assert!(reading.lines.iter().all(|line| line.fault.is_none()) && !reading.is_open_at_end);
            assert_canonical(xml);
        }
        Told::Refused(number, place) => {
            for line in &reading.lines {
                let there = match number {
                    7 => line.names.contains(place) || line.value == Some(*place),
                    8 => line.value == Some(*place),
                    _ => line.start == *place,
                };
                if there {
                    match line.fault {
                        Some(lowest) => assert_eq!(*number, lowest),
                        None => assert!((6..=9).contains(number)),
                    }
                    return;
                }
                assert!(line.fault.is_none(), "refused {number} at {place}, but the line at {} has {:?}", line.start, line.fault);
            }
            assert!(reading.is_open_at_end && (*number, *place) == (6, input.len()), "refused {number} at {place}");
        }
        Told::Needs(length) => panic!("{length} bytes needed where there was ample room"),
    }
}

#[test]
fn the_sample_gives_its_document() {
    assert_eq!(checked(SAMPLE), Told::Written(SAMPLE_XML.to_vec()));
    assert_eq!(to_xml(SAMPLE, Edition::Rfc5545), Ok(SAMPLE_XML.to_vec()));
}

#[test]
fn an_empty_text_has_no_calendar() {
    assert_eq!(checked(b""), Told::Refused(6, 0));
    assert_eq!(to_xml(b"", Edition::Rfc5545), Err(Refusal { number: Number::Frame, place: 0 }));
    assert_eq!(to_xml(b"", Edition::Rfc5545).unwrap_err().to_string(), "refused 6 at byte 0: something where it may not stand, or something missing");
}

#[test]
fn the_longest_input_is_taken_and_no_longer_one() {
    let front = b"BEGIN:VCALENDAR\r\nPRODID:".to_vec();
    let back = b"\r\nVERSION:2.0\r\nEND:VCALENDAR\r\n";
    let longest = [&front[..], &vec![b'a'; LONGEST - front.len() - back.len()], back].concat();
    assert!(matches!(checked(&longest), Told::Written(_)));
    assert!(to_xml(&longest, Edition::Rfc5545).is_ok());

    let longer = [&front[..], &vec![b'a'; LONGEST + 1 - front.len() - back.len()], back].concat();
    for work_length in [0, longer.len()] {
        let (told, work) = to_xml_in(&longer, work_length, 1000);
        assert_eq!(told, Told::Refused(1, 0));
        assert!(work.iter().all(|byte| *byte == FILL));
    }
    assert_eq!(to_xml(&longer, Edition::Rfc5545), Err(Refusal { number: Number::Length, place: 0 }));
}

#[test]
fn a_result_much_longer_than_the_text_is_given_whole() {
    let text = [&b"BEGIN:VCALENDAR\r\nPRODID:\r\nVERSION:2.0\r\n"[..], &b"A:\r\n".repeat(5000), b"END:VCALENDAR\r\n"].concat();
    let xml = to_xml(&text, Edition::Rfc5545).unwrap();
    assert!(xml.len() > 6 * text.len());
    assert_canonical(&xml);
}

#[test]
fn calendars_are_written_whatever_their_folds_are() {
    let mut r = Random::new(1);
    let mut accepted = 0;
    for _ in 0..1000 {
        let kept = unfolded_text(&calendar(&mut r));
        let told = checked(&kept);
        let folded = with_folds(&mut r, &kept);
        match &told {
            Told::Written(xml) => {
                accepted += 1;
                assert_eq!(checked(&folded), told);
                assert_eq!(to_xml(&folded, Edition::Rfc5545).as_ref(), Ok(xml));
            }
            Told::Refused(number, place) => {
                let place = if *place == kept.len() { folded.len() } else { unfolded(&folded)[*place].0 };
                assert_eq!(checked(&folded), Told::Refused(*number, place));
            }
            Told::Needs(_) => unreachable!(),
        }
    }
    assert!(accepted > 950, "{accepted} of 1000 accepted: the inputs are not what they should be");
}

#[test]
fn damaged_calendars_are_refused_where_they_should_be() {
    let mut r = Random::new(2);
    let mut numbers = [0; 12];
    for _ in 0..3000 {
        let kept = unfolded_text(&calendar(&mut r));
        let folded = if r.one_in(2) { with_folds(&mut r, &kept) } else { kept };
        match checked(&damaged(&mut r, &folded, &TEXT_TOKENS)) {
            Told::Refused(number, _) => numbers[usize::from(number)] += 1,
            _ => numbers[0] += 1,
        }
    }
    assert!([0, 3, 4, 5, 6, 7, 8, 9].iter().all(|number| numbers[*number] > 20), "{numbers:?}: the inputs are not what they should be");
}

#[test]
fn any_bytes_have_an_answer() {
    let mut r = Random::new(3);
    for length in 0..400 {
        let alphabet = r.choose(&[256, 128, 8]);
        let bytes: Vec<u8> = (0..length).map(|_| if alphabet == 8 { b"\r\n :A;=\""[r.below(8)] } else { r.below(alphabet) as u8 }).collect();
        checked(&bytes);
    }
}
