//! iCalendar text (RFC 5545) to xCal (RFC 6321) or jCal (RFC 7265) and back, by the static library `libmallettriton.a`, which is proved.
//!
//! ```
//! let text = b"BEGIN:VCALENDAR\r\nPRODID:-//A//B//EN\r\nVERSION:2.0\r\nBEGIN:VTODO\r\n\
//!     UID:1\r\nDTSTAMP:20240501T060000Z\r\nEND:VTODO\r\nEND:VCALENDAR\r\n";
//! use mallettriton::Edition;
//! let xml = mallettriton::to_xml(text, Edition::Rfc5545)?;
//! assert!(xml.starts_with(b"<?xml version=\"1.0\" encoding=\"utf-8\"?>\n<icalendar "));
//! assert_eq!(mallettriton::to_text(&xml, Edition::Rfc5545)?, text);
//! let jcal = mallettriton::to_jcal(text, Edition::Rfc5545)?;
//! assert!(jcal.starts_with(br#"["vcalendar",[["prodid",{},"text","-//A//B//EN"],"#));
//! assert_eq!(mallettriton::jcal_to_text(&jcal, Edition::Rfc5545)?, text);
//!
//! let refusal = mallettriton::to_xml(b"BEGIN:VCALENDAR\r\n", Edition::Rfc5545).unwrap_err();
//! assert_eq!((refusal.number, refusal.place), (mallettriton::Number::Frame, 17));
//! # Ok::<(), mallettriton::Refusal>(())
//! ```
//!
//! [`to_xml`], [`to_jcal`], [`to_text`] and [`jcal_to_text`] take a slice and give a `Vec`. [`to_xml_into`], [`to_jcal_into`], [`to_text_into`] and [`jcal_to_text_into`] work on
//! buffers that the caller lends, allocate nothing, and tell the exact length that an output which is too short would need. [`to_xml_folded`] and [`to_xml_folded_into`] answer what `to_xml`
//! does, with no work room: they are slower, and need little stack. [`documents`] splits a log of XML into its documents. `docs/FORMAT.md` of the repository says what is accepted and what is written.
//!
//! # What is proved, and what is not
//!
//! Proved, of the calls of the library: every call ends, on any bytes and any lengths of the buffers; its answer, and what each lent buffer holds
//! afterwards, is the one that the specification defines; accepted calendars come back unchanged. `docs/CLAIMS.md` has the theorems.
//!
//! Not proved: this crate, and the step over the boundary. Nothing checks that the declarations of the functions below are those of the archive, that the archive
//! is the one that was proved, or that the compiler and the linker are right. The proof supposes of each buffer a pointer that is not null to as many bytes as its length
//! says, with their contents set, and that the work room and the output overlap with nothing. Rust's slices are all this, which is why the calls here are safe
//! functions: a slice's pointer is never null, not even that of an empty slice (it dangles, and is not read through), and `&mut` slices overlap with nothing.
//!
//! # Stack and threads
//!
//! Allow [`to_text`] 1,200 kB of stack and [`jcal_to_text`] 400, most of that a room for one line, and the calls from text, to XML and to jCal, 250 kB, for names that are compared; [`to_xml_folded`] needs 16 kB. A main thread and the threads of `std::thread`
//! (2 MB) have that. In a thread of a smaller stack the call overflows it, which under `std::thread` ends the process.
//!
//! The library keeps nothing between calls: any number of threads may call it at once.
#![deny(missing_docs)]

mod log;

pub use log::{document_end, documents, Documents, Left};
use std::error::Error;
use std::fmt;

/// The longest input in bytes; a longer one is refused ([`Number::Length`]). A work room of this length serves every input.
pub const LONGEST: usize = 65_535;

/// How long the XML of a text of `length` bytes can be. An output of this length always has room, and the call is then faster: it does not measure the result before it writes it.
///
/// ```
/// const ROOM: usize = mallettriton::longest_xml(mallettriton::LONGEST);
/// assert_eq!(ROOM, 1_245_274);
/// ```
pub const fn longest_xml(length: usize) -> usize {
    19 * length + 109
}

/// How long the jCal of a text of `length` bytes can be; as [`longest_xml`].
pub const fn longest_jcal(length: usize) -> usize {
    19 * length + 2
}

/// How long the text of a document, or of jCal, of `length` bytes can be; as [`longest_xml`].
pub const fn longest_text(length: usize) -> usize {
    6 * length
}

/// An edition of iCalendar text. The discriminants are the numbers that the library takes.
#[derive(Clone, Copy, Debug, Default, PartialEq, Eq, Hash)]
#[repr(u32)]
pub enum Edition {
    /// RFC 5545 alone: the value of a parameter stands as it is, and can hold neither a double quote nor LF.
    #[default]
    Rfc5545 = 0,
    /// With the carets of RFC 6868 in values of parameters.
    Rfc6868 = 1,
}

/// Why an input is refused. The discriminants are the numbers of `docs/FORMAT.md`.
#[derive(Clone, Copy, Debug, PartialEq, Eq, PartialOrd, Ord, Hash)]
#[non_exhaustive]
#[repr(u8)]
pub enum Number {
    /// The input is longer than [`LONGEST`].
    Length = 1,
    /// The work room is shorter than the input. Only [`to_xml_into`] and [`to_jcal_into`] answer it.
    Work = 2,
    /// Not UTF-8, or a character that may not stand there; the place is that of its first byte.
    Character = 3,
    /// No content line, or one that is not ended by CR LF. Only the ways from text answer it.
    Line = 4,
    /// A name that can't be carried.
    Name = 5,
    /// Something where it may not stand, or something open or missing at the end.
    Frame = 6,
    /// A parameter that is not permitted, comes again, or has a bad value. In a text the place is that of its name, the leftmost if there are several, or of the
    /// value where ENCODING is missing.
    Parameter = 7,
    /// A value that is not of a permitted type. In a text the place is that of the value's first byte.
    Value = 8,
    /// A property missing or too often, a pair broken, a VTIMEZONE with nothing in it.
    Count = 9,
    /// Outside the XML that is read. Only the way from XML answers it.
    Xml = 11,
    /// Outside JSON's grammar, an escape that names what may not stand there, or a 33rd open array or object. Only the way from jCal answers it.
    Json = 12,
    /// An edition that there is not. No call of this crate is refused so.
    Edition = 13,
    /// An answer that this crate does not know: the archive is of another version. The calls that take their buffers from the caller tell it whole, as [`Answer::Unknown`].
    Unknown = 255,
}

impl fmt::Display for Number {
    fn fmt(&self, f: &mut fmt::Formatter<'_>) -> fmt::Result {
        f.write_str(match self {
            Number::Length => "the input is too long",
            Number::Work => "the work room is too short",
            Number::Character => "not UTF-8, or a character that may not stand there",
            Number::Line => "no content line",
            Number::Name => "a name that can't be carried",
            Number::Frame => "something where it may not stand, or something missing",
            Number::Parameter => "a parameter that is not permitted, comes again, or has a bad value",
            Number::Value => "a value that is not of a permitted type",
            Number::Count => "a property missing or too often, or a pair broken",
            Number::Xml => "outside the XML that is read",
            Number::Json => "outside the JSON that is read",
            Number::Edition => "an edition that there is not",
            Number::Unknown => "an answer that is not known, by an archive of another version",
        })
    }
}

/// A refusal: its number, and its place in the input, counted in bytes from 0.
#[derive(Clone, Copy, Debug, PartialEq, Eq, Hash)]
pub struct Refusal {
    /// Why.
    pub number: Number,
    /// Where: the start of the line, tag, reference, array or character; the input's length if something is open or missing at its end; 0 for [`Number::Length`] and
    /// [`Number::Work`]. A line starts at the first of its bytes that unfolding keeps.
    pub place: usize,
}

impl fmt::Display for Refusal {
    fn fmt(&self, f: &mut fmt::Formatter<'_>) -> fmt::Result {
        match self.number {
            Number::Unknown => self.number.fmt(f),
            number => write!(f, "refused {} at byte {}: {}", number as u8, self.place, number),
        }
    }
}

impl Error for Refusal {}

/// The line and the column of a place in an input, both counted from 1: a line ends after each LF, folded or not, and the column counts bytes.
///
/// ```
/// assert_eq!(mallettriton::line_and_column(b"BEGIN:VCALENDAR\r\nX", 17), (2, 1));
/// ```
pub fn line_and_column(input: &[u8], place: usize) -> (usize, usize) {
    let before = &input[..place.min(input.len())];
    let lines = before.iter().filter(|&&b| b == b'\n').count();
    let start = before.iter().rposition(|&b| b == b'\n').map_or(0, |i| i + 1);
    (lines + 1, before.len() - start + 1)
}

/// What a call on lent buffers answers.
#[derive(Clone, Copy, Debug, PartialEq, Eq)]
#[non_exhaustive]
pub enum Answer<'a> {
    /// Converted. The result stands at the output's start; the output's other bytes are as they were.
    Written(&'a [u8]),
    /// The input is accepted, but the output is shorter than the result, whose exact length this is. The output is as it was.
    Needs(usize),
    /// The input is refused. The output is as it was.
    Refused(Refusal),
    /// An answer that this crate does not know, as the library gave it: the archive is of another version, and nothing can be said of the buffers.
    Unknown {
        /// Its number.
        number: u32,
        /// Its value.
        value: usize,
    },
}

extern "C" {
    fn mallettriton_to_xml(input: *const u8, input_length: usize, work: *mut u8, work_length: usize, out: *mut u8, out_length: usize, edition: u32) -> u64;
    fn mallettriton_to_xml_folded(input: *const u8, input_length: usize, out: *mut u8, out_length: usize, edition: u32) -> u64;
    fn mallettriton_to_jcal(input: *const u8, input_length: usize, work: *mut u8, work_length: usize, out: *mut u8, out_length: usize, edition: u32) -> u64;
    fn mallettriton_to_text(input: *const u8, input_length: usize, out: *mut u8, out_length: usize, edition: u32) -> u64;
    fn mallettriton_jcal_to_text(input: *const u8, input_length: usize, out: *mut u8, out_length: usize, edition: u32) -> u64;
}

/// Takes an answer of the library apart: its number times 2 ^ 32, and its value.
fn answer(code: u64, out: &[u8]) -> Answer<'_> {
    let value = (code & 0xffff_ffff) as usize;
    let unknown = Answer::Unknown { number: (code >> 32) as u32, value };
    let number = match code >> 32 {
        0 => return out.get(..value).map_or(unknown, Answer::Written),
        1 => Number::Length,
        2 => Number::Work,
        3 => Number::Character,
        4 => Number::Line,
        5 => Number::Name,
        6 => Number::Frame,
        7 => Number::Parameter,
        8 => Number::Value,
        9 => Number::Count,
        10 => return Answer::Needs(value),
        11 => Number::Xml,
        12 => Number::Json,
        13 => Number::Edition,
        _ => return unknown,
    };
    Answer::Refused(Refusal { number, place: value })
}

/// Converts the iCalendar text `input` to canonical XML, at the start of `out`.
///
/// `work` is a work room as long as the input, or longer. It is as it was after the refusals [`Number::Length`] and [`Number::Work`]; after every other answer it begins with the input
/// without its folds, and its other bytes are as they were. Neither buffer has to be cleared between calls.
///
/// ```
/// use mallettriton::{to_xml_into, Answer, Edition, LONGEST};
/// # let text = b"BEGIN:VCALENDAR\r\nPRODID:-//A//B//EN\r\nVERSION:2.0\r\nBEGIN:VTODO\r\nUID:1\r\nDTSTAMP:20240501T060000Z\r\nEND:VTODO\r\nEND:VCALENDAR\r\n";
/// let mut work = vec![0; LONGEST];
/// let mut out = vec![0; 1000];
/// match to_xml_into(text, &mut work, &mut out, Edition::Rfc5545) {
///     Answer::Written(xml) => assert!(xml.ends_with(b"</icalendar>\n")),
///     Answer::Needs(length) => panic!("an output of {length} bytes is needed"),
///     Answer::Refused(refusal) => panic!("{refusal}"),
///     _ => unreachable!(),
/// }
/// ```
pub fn to_xml_into<'a>(input: &[u8], work: &mut [u8], out: &'a mut [u8], edition: Edition) -> Answer<'a> {
    // SAFETY: the pointers are those of slices, so they are not null and are to as many bytes as the lengths say; `work` and `out` are borrowed alone.
    let code = unsafe { mallettriton_to_xml(input.as_ptr(), input.len(), work.as_mut_ptr(), work.len(), out.as_mut_ptr(), out.len(), edition as u32) };
    answer(code, out)
}

/// Converts the iCalendar text `input` to canonical XML, at the start of `out`, as [`to_xml_into`] does with a work room that is long enough; but none is lent, since the text is read with its
/// folds in place. It never answers [`Number::Work`]. It is slower, and needs 16 kB of stack.
///
/// ```
/// use mallettriton::{to_xml_folded_into, Answer, Edition};
/// # let text = b"BEGIN:VCALENDAR\r\nPRODID:-//A//B//EN\r\nVERSION:2.0\r\nBEGIN:VTODO\r\nUID:1\r\nDTSTAMP:20240501T060000Z\r\nEND:VTODO\r\nEND:VCALENDAR\r\n";
/// let mut out = [0; 1000];
/// assert!(matches!(to_xml_folded_into(text, &mut out, Edition::Rfc5545), Answer::Written(_)));
/// ```
pub fn to_xml_folded_into<'a>(input: &[u8], out: &'a mut [u8], edition: Edition) -> Answer<'a> {
    // SAFETY: as above.
    let code = unsafe { mallettriton_to_xml_folded(input.as_ptr(), input.len(), out.as_mut_ptr(), out.len(), edition as u32) };
    answer(code, out)
}

/// Converts the iCalendar text `input` to canonical jCal, at the start of `out`. Its buffers are those of [`to_xml_into`].
///
/// An output that is too short is left as it was, and the answer is the length that is needed:
///
/// ```
/// use mallettriton::{to_jcal_into, Answer, Edition, LONGEST};
/// # let text = b"BEGIN:VCALENDAR\r\nPRODID:-//A//B//EN\r\nVERSION:2.0\r\nBEGIN:VTODO\r\nUID:1\r\nDTSTAMP:20240501T060000Z\r\nEND:VTODO\r\nEND:VCALENDAR\r\n";
/// let mut work = vec![0; LONGEST];
/// let Answer::Needs(length) = to_jcal_into(text, &mut work, &mut [], Edition::Rfc5545) else { panic!("not accepted") };
/// let mut out = vec![0; length];
/// let Answer::Written(jcal) = to_jcal_into(text, &mut work, &mut out, Edition::Rfc5545) else { panic!("{length} bytes are enough") };
/// assert_eq!(jcal.len(), length);
/// ```
pub fn to_jcal_into<'a>(input: &[u8], work: &mut [u8], out: &'a mut [u8], edition: Edition) -> Answer<'a> {
    // SAFETY: as above.
    let code = unsafe { mallettriton_to_jcal(input.as_ptr(), input.len(), work.as_mut_ptr(), work.len(), out.as_mut_ptr(), out.len(), edition as u32) };
    answer(code, out)
}

/// Converts the xCal document `input` to canonical iCalendar text, at the start of `out`.
///
/// Allow it 1,200 kB of stack.
///
/// ```
/// use mallettriton::{longest_text, to_text_into, Answer, Edition};
/// let xml = b"<icalendar xmlns='urn:ietf:params:xml:ns:icalendar-2.0'><vcalendar><properties><prodid><text>A</text></prodid>\
///     <version><text>2.0</text></version></properties><components/></vcalendar></icalendar>";
/// let mut out = vec![0; longest_text(xml.len())];
/// let text = b"BEGIN:VCALENDAR\r\nPRODID:A\r\nVERSION:2.0\r\nEND:VCALENDAR\r\n";
/// assert_eq!(to_text_into(xml, &mut out, Edition::Rfc5545), Answer::Written(text));
/// ```
pub fn to_text_into<'a>(input: &[u8], out: &'a mut [u8], edition: Edition) -> Answer<'a> {
    // SAFETY: as above.
    let code = unsafe { mallettriton_to_text(input.as_ptr(), input.len(), out.as_mut_ptr(), out.len(), edition as u32) };
    answer(code, out)
}

/// Converts the jCal text `input` to canonical iCalendar text, at the start of `out`.
///
/// Allow it 400 kB of stack.
///
/// ```
/// use mallettriton::{jcal_to_text_into, Answer, Edition, Number, Refusal};
/// let jcal = br#"["vcalendar", [["prodid", {}, "text", "A"], ["version", {}, "text", "2.0"]], []]"#;
/// let mut out = [0; 100];
/// let text = b"BEGIN:VCALENDAR\r\nPRODID:A\r\nVERSION:2.0\r\nEND:VCALENDAR\r\n";
/// assert_eq!(jcal_to_text_into(jcal, &mut out, Edition::Rfc5545), Answer::Written(text));
/// let cut_short = jcal_to_text_into(&jcal[..40], &mut out, Edition::Rfc5545);
/// assert_eq!(cut_short, Answer::Refused(Refusal { number: Number::Json, place: 40 }));
/// ```
pub fn jcal_to_text_into<'a>(input: &[u8], out: &'a mut [u8], edition: Edition) -> Answer<'a> {
    // SAFETY: as above.
    let code = unsafe { mallettriton_jcal_to_text(input.as_ptr(), input.len(), out.as_mut_ptr(), out.len(), edition as u32) };
    answer(code, out)
}

/// An output of the length that always has room, cut to the result.
fn in_a_vec(length: usize, convert: impl Fn(&mut [u8]) -> Answer<'_>) -> Result<Vec<u8>, Refusal> {
    let mut out = vec![0; length];
    match convert(&mut out) {
        Answer::Written(result) => {
            let written = result.len();
            out.truncate(written);
            out.shrink_to_fit();
            Ok(out)
        }
        Answer::Refused(refusal) => Err(refusal),
        // that it needs no more than this length is proved
        Answer::Needs(value) | Answer::Unknown { value, .. } => Err(Refusal { number: Number::Unknown, place: value }),
    }
}

/// Converts the iCalendar text `input` to canonical XML.
///
/// It allocates the work room and an output of [`longest_xml`] bytes, and gives back what the result does not fill. To use buffers over and over, call [`to_xml_into`].
///
/// ```
/// use mallettriton::{line_and_column, to_xml, Edition};
/// # let text = b"BEGIN:VCALENDAR\r\nPRODID:-//A//B//EN\r\nVERSION:2.0\r\nBEGIN:VTODO\r\nUID:1\r\nDTSTAMP:20240501T060000Z\r\nEND:VTODO\r\nEND:VCALENDAR\r\n";
/// assert!(to_xml(text, Edition::Rfc5545).is_ok());
/// let bad = b"BEGIN:VCALENDAR\r\nPRODID:a\r\nVERSION:2.0\r\nCALSCALE:JULIAN,\r\nEND:VCALENDAR\r\n";
/// let refusal = to_xml(bad, Edition::Rfc5545).unwrap_err();
/// assert_eq!(refusal.to_string(), "refused 8 at byte 49: a value that is not of a permitted type");
/// assert_eq!(line_and_column(bad, refusal.place), (4, 10));
/// ```
pub fn to_xml(input: &[u8], edition: Edition) -> Result<Vec<u8>, Refusal> {
    // too long an input is refused before either is used
    let length = if input.len() <= LONGEST { input.len() } else { 0 };
    in_a_vec(longest_xml(length), |out| to_xml_into(input, &mut vec![0; length], out, edition))
}

/// Converts the iCalendar text `input` to canonical XML, as [`to_xml`] does, with no work room.
///
/// It allocates an output of [`longest_xml`] bytes, and gives back what the result does not fill. To use a buffer over and over, call [`to_xml_folded_into`].
///
/// ```
/// use mallettriton::{to_xml, to_xml_folded, Edition};
/// # let text = b"BEGIN:VCALENDAR\r\nPRODID:-//A//B//EN\r\nVERSION:2.0\r\nBEGIN:VTODO\r\nUID:1\r\nDTSTAMP:20240501T060000Z\r\nEND:VTODO\r\nEND:VCALENDAR\r\n";
/// assert_eq!(to_xml_folded(text, Edition::Rfc5545), to_xml(text, Edition::Rfc5545));
/// ```
pub fn to_xml_folded(input: &[u8], edition: Edition) -> Result<Vec<u8>, Refusal> {
    let length = if input.len() <= LONGEST { input.len() } else { 0 };
    in_a_vec(longest_xml(length), |out| to_xml_folded_into(input, out, edition))
}

/// Converts the iCalendar text `input` to canonical jCal.
///
/// It allocates the work room and an output of [`longest_jcal`] bytes, and gives back what the result does not fill. To use buffers over and over, call [`to_jcal_into`].
///
/// ```
/// use mallettriton::{to_jcal, Edition};
/// let text = b"BEGIN:VCALENDAR\r\nPRODID:A\r\nVERSION:2.0\r\nEND:VCALENDAR\r\n";
/// assert_eq!(to_jcal(text, Edition::Rfc5545)?, br#"["vcalendar",[["prodid",{},"text","A"],["version",{},"text","2.0"]],[]]"#);
/// # Ok::<(), mallettriton::Refusal>(())
/// ```
pub fn to_jcal(input: &[u8], edition: Edition) -> Result<Vec<u8>, Refusal> {
    let length = if input.len() <= LONGEST { input.len() } else { 0 };
    in_a_vec(longest_jcal(length), |out| to_jcal_into(input, &mut vec![0; length], out, edition))
}

/// Converts the xCal document `input` to canonical iCalendar text.
///
/// It allocates an output of [`longest_text`] bytes, and gives back what the result does not fill. Allow it 1,200 kB of stack. To use a buffer over and over, call [`to_text_into`].
///
/// The edition is that of the text which is written:
///
/// ```
/// use mallettriton::{to_text, to_xml, Edition, Number};
/// let text = b"BEGIN:VCALENDAR\r\nPRODID;X-BY=Anna ^'Gale^' Brandt:A\r\nVERSION:2.0\r\nEND:VCALENDAR\r\n";
/// let xml = to_xml(text, Edition::Rfc6868)?;
/// assert_eq!(to_text(&xml, Edition::Rfc6868)?, text);
/// assert_eq!(to_text(&xml, Edition::Rfc5545).unwrap_err().number, Number::Parameter);
/// # Ok::<(), mallettriton::Refusal>(())
/// ```
pub fn to_text(input: &[u8], edition: Edition) -> Result<Vec<u8>, Refusal> {
    let length = if input.len() <= LONGEST { input.len() } else { 0 };
    in_a_vec(longest_text(length), |out| to_text_into(input, out, edition))
}

/// Converts the jCal text `input` to canonical iCalendar text.
///
/// It allocates an output of [`longest_text`] bytes, and gives back what the result does not fill. Allow it 400 kB of stack. To use a buffer over and over, call [`jcal_to_text_into`].
///
/// ```
/// use mallettriton::{jcal_to_text, to_jcal, Edition};
/// # let text = b"BEGIN:VCALENDAR\r\nPRODID:-//A//B//EN\r\nVERSION:2.0\r\nBEGIN:VTODO\r\nUID:1\r\nDTSTAMP:20240501T060000Z\r\nEND:VTODO\r\nEND:VCALENDAR\r\n";
/// let jcal = to_jcal(text, Edition::Rfc5545)?;
/// assert_eq!(jcal_to_text(&jcal, Edition::Rfc5545)?, text);
/// # Ok::<(), mallettriton::Refusal>(())
/// ```
pub fn jcal_to_text(input: &[u8], edition: Edition) -> Result<Vec<u8>, Refusal> {
    let length = if input.len() <= LONGEST { input.len() } else { 0 };
    in_a_vec(longest_text(length), |out| jcal_to_text_into(input, out, edition))
}

/// The examples of README.md run with those of the documentation.
#[cfg(doctest)]
#[doc = include_str!("../README.md")]
struct Readme;

#[cfg(test)]
mod tests {
    use super::*;

    #[test]
    fn every_answer_is_taken_and_none_panics() {
        let out = [7; 3];
        assert_eq!(answer(3, &out), Answer::Written(&out));
        assert_eq!(answer(4, &out), Answer::Unknown { number: 0, value: 4 });
        assert_eq!(answer(10 << 32 | 5, &out), Answer::Needs(5));
        for number in 1..=13u64 {
            match answer(number << 32 | 5, &out) {
                Answer::Refused(Refusal { number: told, place: 5 }) => assert_eq!(told as u64, number),
                other => assert_eq!((number, other), (10, Answer::Needs(5))),
            }
        }
        for number in [14, 15, 16, 255, 256, u32::MAX] {
            assert_eq!(answer(u64::from(number) << 32 | 5, &out), Answer::Unknown { number, value: 5 });
        }
    }

    #[test]
    fn an_answer_of_another_version_is_an_error() {
        let unknown = Refusal { number: Number::Unknown, place: 5 };
        for code in [99 << 32 | 5, 10 << 32 | 5, 5] {
            assert_eq!(in_a_vec(3, |out| answer(code, out)), Err(unknown));
        }
        assert_eq!(unknown.to_string(), "an answer that is not known, by an archive of another version");
    }
}
