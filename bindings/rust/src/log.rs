//! A log: the XML of calls one after another, and the documents that it is made of.
use std::error::Error;
use std::fmt;
use std::iter::FusedIterator;

extern "C" {
    fn mallettriton_document_end(log: *const u8, log_length: usize) -> usize;
}

/// How many bytes the first document of a log has; `None` where no document ends in it.
///
/// A log is the XML that calls wrote, in any editions, one document after another; it may have any length. On other bytes the answer is the place behind the first
/// `</icalendar>` that a line feed follows.
///
/// ```
/// # let text = b"BEGIN:VCALENDAR\r\nPRODID:-//A//B//EN\r\nVERSION:2.0\r\nBEGIN:VTODO\r\nUID:1\r\nDTSTAMP:20240501T060000Z\r\nEND:VTODO\r\nEND:VCALENDAR\r\n";
/// let xml = mallettriton::to_xml(text, mallettriton::Edition::Rfc5545)?;
/// let log = [&xml[..], &xml[..]].concat();
/// assert_eq!(mallettriton::document_end(&log), Some(xml.len()));
/// assert_eq!(mallettriton::document_end(&xml[..xml.len() - 1]), None);
/// # Ok::<(), mallettriton::Refusal>(())
/// ```
pub fn document_end(log: &[u8]) -> Option<usize> {
    // SAFETY: the pointer is that of a slice, so it is not null and is to as many bytes as the length says.
    match unsafe { mallettriton_document_end(log.as_ptr(), log.len()) } {
        0 => None,
        end => Some(end),
    }
}

/// The documents of a log, first to last. If bytes are left behind the last one, as where the log was cut off, they come last, as an error.
///
/// The documents and those bytes, one after another, are the log.
///
/// ```
/// # let text = b"BEGIN:VCALENDAR\r\nPRODID:-//A//B//EN\r\nVERSION:2.0\r\nBEGIN:VTODO\r\nUID:1\r\nDTSTAMP:20240501T060000Z\r\nEND:VTODO\r\nEND:VCALENDAR\r\n";
/// use mallettriton::{documents, to_xml, Edition, Left};
/// let xml = to_xml(text, Edition::Rfc5545)?;
/// let log = [&xml[..], &xml[..], &xml[..100]].concat();
/// let parts: Vec<_> = documents(&log).collect();
/// assert_eq!(parts, [Ok(&xml[..]), Ok(&xml[..]), Err(Left { bytes: &xml[..100], place: 2 * xml.len() })]);
/// # Ok::<(), mallettriton::Refusal>(())
/// ```
pub fn documents(log: &[u8]) -> Documents<'_> {
    Documents { left: log, place: 0 }
}

/// The iterator of [`documents`].
#[derive(Clone, Debug)]
pub struct Documents<'a> {
    left: &'a [u8],
    place: usize,
}

/// Bytes behind the last document of a log, in which no document ends.
#[derive(Clone, Copy, Debug, PartialEq, Eq)]
pub struct Left<'a> {
    /// The bytes.
    pub bytes: &'a [u8],
    /// Where they begin in the log.
    pub place: usize,
}

impl fmt::Display for Left<'_> {
    fn fmt(&self, f: &mut fmt::Formatter<'_>) -> fmt::Result {
        write!(f, "{} bytes from byte {} of the log on, in which no document ends", self.bytes.len(), self.place)
    }
}

impl Error for Left<'_> {}

impl<'a> Iterator for Documents<'a> {
    type Item = Result<&'a [u8], Left<'a>>;

    fn next(&mut self) -> Option<Self::Item> {
        if self.left.is_empty() {
            return None;
        }
        let place = self.place;
        let part = match document_end(self.left) {
            // an end is within the log
            Some(end) if end <= self.left.len() => {
                let (document, left) = self.left.split_at(end);
                self.left = left;
                Ok(document)
            }
            _ => Err(Left { bytes: std::mem::take(&mut self.left), place }),
        };
        self.place += part.map_or(0, <[u8]>::len);
        Some(part)
    }
}

impl FusedIterator for Documents<'_> {}
