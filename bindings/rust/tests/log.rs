//! Logs: seeded calendars to XML, one after another, split again; cut off; and bytes that are no log, against a plain search.
mod common;

use common::inputs::{calendar, unfolded_text, Random};
use mallettriton::{document_end, documents, to_xml, Edition, Left};

const SAMPLE_XML: &[u8] = include_bytes!("../../../samples/rota.xml");
const CLOSE: &[u8] = b"</icalendar>\n";

/// The documents of a log and the bytes that are left, held to being the log.
fn split(log: &[u8]) -> (Vec<&[u8]>, &[u8]) {
    let mut found = Vec::new();
    let mut left: &[u8] = &[];
    for part in documents(log) {
        assert!(left.is_empty(), "what is left comes last");
        match part {
            Ok(document) => found.push(document),
            Err(Left { bytes, place }) => {
                assert_eq!(&log[place..], bytes);
                assert!(!bytes.is_empty());
                left = bytes;
            }
        }
    }
    assert_eq!([found.concat(), left.to_vec()].concat(), log);
    (found, left)
}

/// A calendar whose XML has what a document ends with in nearly every way that it can: elements of the root's name, before elements and end tags; its characters, and line feeds, in
/// values.
fn hostile() -> Vec<u8> {
    b"BEGIN:VCALENDAR\r\nPRODID:</icalendar>\\n\r\nVERSION:2.0\r\nICALENDAR:</icalendar>\r\nBEGIN:ICALENDAR\r\nICALENDAR:\r\nEND:ICALENDAR\r\nBEGIN:VTODO\r\nUID:1\r\n\
        DTSTAMP:20240501T060000Z\r\nSUMMARY:\\n</icalendar>\\n\r\nCOMMENT;ICALENDAR=</icalendar>:\\n\r\nICALENDAR;VALUE=TEXT:\\n\r\nEND:VTODO\r\nEND:VCALENDAR\r\n"
        .to_vec()
}

#[test]
fn a_document_ends_where_it_ends() {
    assert_eq!(document_end(b""), None);
    assert_eq!(document_end(SAMPLE_XML), Some(SAMPLE_XML.len()));
    for end in 0..SAMPLE_XML.len() {
        assert_eq!(document_end(&SAMPLE_XML[..end]), None);
    }
    assert_eq!(split(b""), (vec![], &b""[..]));
    assert_eq!(split(b"\n"), (vec![], &b"\n"[..]));
}

#[test]
fn elements_of_the_roots_name() {
    let xml = to_xml(&hostile(), Edition::Rfc5545).unwrap();
    let names = xml.windows(CLOSE.len() - 1).filter(|w| *w == &CLOSE[..CLOSE.len() - 1]).count();
    assert_eq!(names, 6, "{}", String::from_utf8_lossy(&xml));
    let log = [&xml[..], SAMPLE_XML, &xml[..]].concat();
    assert_eq!(split(&log), (vec![&xml[..], SAMPLE_XML, &xml[..]], &b""[..]));
}

#[test]
fn logs_of_seeded_calendars() {
    for seed in 0..200 {
        let r = &mut Random::new(seed);
        let mut written = Vec::new();
        for _ in 0..r.below(6) {
            let edition = r.choose(&[Edition::Rfc5545, Edition::Rfc6868]);
            let text = if r.one_in(5) { hostile() } else { unfolded_text(&calendar(r)) };
            written.extend(to_xml(&text, edition));
        }
        let log = written.concat();
        let (found, left) = split(&log);
        assert_eq!(found, written, "seed {seed}");
        assert_eq!(left, b"");

        // cut off: the whole documents, and the part of the next
        let cut = r.below(log.len() + 1);
        let (found, left) = split(&log[..cut]);
        assert_eq!(found, written[..found.len()], "seed {seed}");
        if let Some(next) = written.get(found.len()) {
            assert!(next.len() > left.len() && next.starts_with(left));
        } else {
            assert_eq!(left, b"");
        }
    }
}

#[test]
fn any_bytes() {
    let tokens: [&[u8]; 8] = [b"<", b"</", b"</icalendar", b"</icalendar>", CLOSE, b"\n", b">", b"\xff\0"];
    for seed in 0..2000 {
        let r = &mut Random::new(seed);
        let mut log = Vec::new();
        for _ in 0..r.below(12) {
            log.extend_from_slice(r.choose(&tokens));
        }
        let plain = log.windows(CLOSE.len()).position(|w| w == CLOSE).map(|at| at + CLOSE.len());
        assert_eq!(document_end(&log), plain, "seed {seed}");
        split(&log);
    }
}
