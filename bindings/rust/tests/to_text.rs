//! XML to text, and both ways in a row: seeded documents, canonical, written otherwise, and damaged, against simple readings of the rules.
mod common;

use common::inputs::{calendar, damaged, rearranged, rewritten, unfolded_text, with_folds, Random, XML_TOKENS};
use common::readings::{assert_folded, bad_character, kept_of, BACK, FRONT};
use common::{ample, in_every_room, to_text_in, Told};
use mallettriton::{to_text, to_xml, Edition, Number, Refusal, LONGEST};

const SAMPLE: &[u8] = include_bytes!("../../../samples/rota.ics");
const SAMPLE_XML: &[u8] = include_bytes!("../../../samples/rota.xml");

/// The call on an input, with outputs of several lengths, against the readings; its answer with ample room.
fn checked(input: &[u8]) -> Told {
    let told = to_text_in(input, ample(input));
    match (&told, bad_character(input)) {
        (Told::Refused(3, place), Some(bad)) => assert_eq!(*place, bad),
        (other, Some(bad)) => panic!("{other:?} for a bad character at {bad}"),
        (Told::Written(text), None) => assert_folded(text),
        (Told::Refused(number, place), None) => {
            assert!((5..=9).contains(number) || *number == 11, "refused {number} at {place}");
            // a tag, a reference, a character, or the end of the input
            assert!(*place == input.len() || std::str::from_utf8(&input[*place..]).is_ok(), "refused {number} at {place}");
            if matches!(number, 5 | 7 | 8 | 9) {
                assert_eq!(input[*place], b'<', "refused {number} at {place}");
            }
        }
        (Told::Needs(length), None) => panic!("{length} bytes needed where there was ample room"),
    }
    in_every_room(&told, |length| to_text_in(input, length));
    told
}

/// The XML of the next accepted calendar that is not too long to be read back.
fn document(r: &mut Random) -> (Vec<u8>, Vec<u8>) {
    loop {
        let kept = unfolded_text(&calendar(r));
        let text = with_folds(r, &kept);
        match to_xml(&text, Edition::Rfc5545) {
            Ok(xml) if xml.len() <= LONGEST => return (text, xml),
            _ => continue,
        }
    }
}

#[test]
fn the_sample_gives_its_text() {
    assert_eq!(checked(SAMPLE_XML), Told::Written(SAMPLE.to_vec()));
    assert_eq!(to_text(SAMPLE_XML, Edition::Rfc5545), Ok(SAMPLE.to_vec()));
}

#[test]
fn an_empty_document_has_no_root() {
    assert_eq!(checked(b""), Told::Refused(11, 0));
    assert_eq!(to_text(b"", Edition::Rfc5545), Err(Refusal { number: Number::Xml, place: 0 }));
}

#[test]
fn the_longest_input_is_taken_and_no_longer_one() {
    let front = format!("{FRONT}<vcalendar><properties><prodid><text>");
    let back = format!("</text></prodid><version><text>2.0</text></version></properties><components></components></vcalendar>{BACK}");
    let longest = format!("{front}{}{back}", "a".repeat(LONGEST - front.len() - back.len()));
    assert!(matches!(checked(longest.as_bytes()), Told::Written(_)));

    let longer = format!("{longest} ");
    assert_eq!(to_text_in(longer.as_bytes(), 100_000), Told::Refused(1, 0));
    assert_eq!(to_text(longer.as_bytes(), Edition::Rfc5545), Err(Refusal { number: Number::Length, place: 0 }));
}

#[test]
fn thirty_two_elements_are_open_at_once_and_no_more() {
    let nested = |depth: usize| format!("{FRONT}{}{}{BACK}", "<a>".repeat(depth), "</a>".repeat(depth));
    assert_eq!(checked(nested(31).as_bytes()), Told::Refused(6, FRONT.len()));
    assert_eq!(checked(nested(32).as_bytes()), Told::Refused(11, FRONT.len() + 3 * 31));
}

#[test]
fn calendars_come_back_unchanged() {
    let mut r = Random::new(4);
    for _ in 0..500 {
        let (text, xml) = document(&mut r);
        let Told::Written(back) = checked(&xml) else {
            panic!("the XML of an accepted text is refused: {}", String::from_utf8_lossy(&xml));
        };
        assert_eq!(to_xml(&back, Edition::Rfc5545).as_ref(), Ok(&xml), "of {}", String::from_utf8_lossy(&text));
        assert_eq!(to_xml(&kept_of(&back), Edition::Rfc5545).as_ref(), Ok(&xml));
    }
}

#[test]
fn a_calendar_may_be_written_in_many_ways() {
    let mut r = Random::new(5);
    for _ in 0..500 {
        let (_, xml) = document(&mut r);
        let other = rewritten(&mut r, std::str::from_utf8(&xml).unwrap());
        if other.len() <= LONGEST {
            assert_eq!(checked(other.as_bytes()), Told::Written(to_text(&xml, Edition::Rfc5545).unwrap()), "of {other}");
        }
    }
}

#[test]
fn damaged_documents_have_an_answer() {
    let mut r = Random::new(6);
    let mut numbers = [0; 12];
    for _ in 0..2000 {
        let (_, xml) = document(&mut r);
        let xml = std::str::from_utf8(&xml).unwrap();
        let input = match r.below(4) {
            0 => damaged(&mut r, xml.as_bytes(), &XML_TOKENS),
            1 => {
                let other = rewritten(&mut r, xml);
                damaged(&mut r, other.as_bytes(), &XML_TOKENS)
            }
            _ => rearranged(&mut r, xml).into_bytes(),
        };
        let told = checked(&input);
        if let Told::Written(text) = &told {
            let again = to_xml(text, Edition::Rfc5545).expect("canonical text is accepted");
            assert_eq!(to_text(&again, Edition::Rfc5545).as_ref(), Ok(text));
        }
        match told {
            Told::Refused(number, _) => numbers[usize::from(number)] += 1,
            _ => numbers[0] += 1,
        }
    }
    assert!([0, 3, 5, 6, 7, 8, 9, 11].iter().all(|number| numbers[*number] > 20), "{numbers:?}: the inputs are not what they should be");
}

#[test]
fn any_bytes_have_an_answer() {
    let mut r = Random::new(7);
    for length in 0..400 {
        let alphabet = r.choose(&[256, 128, 8]);
        let bytes: Vec<u8> = (0..length).map(|_| if alphabet == 8 { b"<>/&;a#\""[r.below(8)] } else { r.below(alphabet) as u8 }).collect();
        checked(&bytes);
        checked(&[FRONT.as_bytes(), &bytes[..], BACK.as_bytes()].concat());
    }
}
