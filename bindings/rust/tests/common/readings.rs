//! Simple readings of the rules: unfolding, characters, lines, names, nesting, folding, tags.

/// The bytes that unfolding keeps, each with its place in the input.
pub fn unfolded(input: &[u8]) -> Vec<(usize, u8)> {
    let mut kept = Vec::new();
    let mut at = 0;
    while at < input.len() {
        if input[at..].starts_with(b"\r\n ") || input[at..].starts_with(b"\r\n\t") {
            at += 3;
        } else {
            kept.push((at, input[at]));
            at += 1;
        }
    }
    kept
}

/// Those bytes alone.
pub fn kept_of(input: &[u8]) -> Vec<u8> {
    unfolded(input).into_iter().map(|(_, byte)| byte).collect()
}

fn is_forbidden(c: char) -> bool {
    c < ' ' && !matches!(c, '\t' | '\r' | '\n') || matches!(c, '\u{7f}' | '\u{fffe}' | '\u{ffff}')
}

/// The first byte of the first sequence that is no character, or none that may stand there.
pub fn bad_character(bytes: &[u8]) -> Option<usize> {
    let good = match std::str::from_utf8(bytes) {
        Ok(_) => bytes.len(),
        Err(error) => error.valid_up_to(),
    };
    let text = std::str::from_utf8(&bytes[..good]).unwrap();
    let forbidden = text.char_indices().find(|(_, c)| is_forbidden(*c)).map(|(at, _)| at);
    forbidden.or(if good < bytes.len() { Some(good) } else { None })
}

/// A line of the unfolded bytes.
pub struct Line<'a> {
    /// where it starts among them
    pub start: usize,
    pub bytes: &'a [u8],
    /// by CR LF
    pub is_ended: bool,
}

pub fn lines(kept: &[u8]) -> Vec<Line<'_>> {
    let mut lines = Vec::new();
    let mut start = 0;
    while start < kept.len() {
        let rest = &kept[start..];
        match rest.windows(2).position(|pair| pair == b"\r\n") {
            Some(length) => {
                lines.push(Line { start, bytes: &rest[..length], is_ended: true });
                start += length + 2;
            }
            None => {
                lines.push(Line { start, bytes: rest, is_ended: false });
                start = kept.len();
            }
        }
    }
    lines
}

/// A content line: its name, the names of its parameters, its value; and how many bytes of it stand before each of these names, and before the value.
pub struct Content {
    pub name: String,
    pub parameters: Vec<String>,
    pub value: String,
    pub names_at: Vec<usize>,
    pub value_at: usize,
}

/// Reads `name *(";" name "=" value *("," value)) ":" value`; the characters have been looked at before.
pub fn content(line: &Line<'_>) -> Option<Content> {
    if !line.is_ended {
        return None;
    }
    let text = std::str::from_utf8(line.bytes).unwrap();
    if text.contains(['\r', '\n']) {
        return None;
    }
    let (name, mut rest) = name_of(text)?;
    let mut parameters = Vec::new();
    let mut names_at = Vec::new();
    while let Some(parameter) = rest.strip_prefix(';') {
        let (name, behind) = name_of(parameter)?;
        names_at.push(text.len() - parameter.len());
        parameters.push(name.to_ascii_uppercase());
        rest = behind.strip_prefix('=')?;
        loop {
            rest = match rest.strip_prefix('"') {
                Some(quoted) => quoted.split_once('"')?.1,
                None => &rest[rest.find(['"', ';', ':', ',']).unwrap_or(rest.len())..],
            };
            match rest.strip_prefix(',') {
                Some(next) => rest = next,
                None => break,
            }
        }
    }
    let value = rest.strip_prefix(':')?;
    let value_at = text.len() - value.len();
    Some(Content { name: name.to_ascii_uppercase(), parameters, value: value.to_string(), names_at, value_at })
}

fn name_of(text: &str) -> Option<(&str, &str)> {
    let length = text.find(|c: char| !(c.is_ascii_alphanumeric() || c == '-')).unwrap_or(text.len());
    if length == 0 {
        return None;
    }
    Some(text.split_at(length))
}

/// A name, in capitals, that can be carried.
fn is_carried(name: &str) -> bool {
    !name.starts_with(|c: char| c.is_ascii_digit() || c == '-') && !name.starts_with("XML")
}

/// A name, in capitals, that a component can have: BEGIN and END too.
fn is_component_name(name: &str) -> bool {
    matches!(name_of(name), Some((_, ""))) && is_carried(name)
}

const COMPONENTS: [&str; 9] = ["VCALENDAR", "VEVENT", "VTODO", "VJOURNAL", "VFREEBUSY", "VTIMEZONE", "STANDARD", "DAYLIGHT", "VALARM"];

/// VCALENDAR, and eight levels below it.
const LEVELS: usize = 9;

fn may_hold(outer: &str, inner: &str) -> bool {
    match outer {
        "VCALENDAR" => matches!(inner, "VEVENT" | "VTODO" | "VJOURNAL" | "VFREEBUSY" | "VTIMEZONE") || !COMPONENTS.contains(&inner),
        "VEVENT" | "VTODO" => inner == "VALARM",
        "VTIMEZONE" => matches!(inner, "STANDARD" | "DAYLIGHT"),
        _ => !COMPONENTS.contains(&outer) && inner != "VCALENDAR",
    }
}

/// The components that are open, each with whether a subcomponent has come.
struct Open {
    stack: Vec<(String, bool)>,
}

impl Open {
    /// Takes a line; `false` where it may not stand there.
    fn takes(&mut self, line: &Content) -> bool {
        let value = line.value.to_ascii_uppercase();
        let has_level = self.stack.len() < LEVELS;
        match (line.name.as_str(), self.stack.last_mut()) {
            ("BEGIN", None) => {
                self.stack.push((value.clone(), false));
                value == "VCALENDAR"
            }
            ("BEGIN", Some((outer, inner))) => {
                *inner = true;
                let may = has_level && may_hold(outer, &value);
                self.stack.push((value, false));
                may
            }
            ("END", Some((outer, _))) => {
                let same = *outer == value;
                self.stack.pop();
                same
            }
            (_, None) => false,
            (_, Some((outer, inner))) => !*inner || outer == "VTIMEZONE",
        }
    }
}

/// A line: its place, and those of its parameters' names and of its value; and, where these readings find it faulty, the lowest number from 4 to 6 that they can tell.
pub struct LineTold {
    pub start: usize,
    pub names: Vec<usize>,
    pub value: Option<usize>,
    pub fault: Option<u8>,
}

/// What these readings say of a text whose characters are good: its lines, up to the first that they find faulty; and whether something is open at the end, or there is
/// no calendar, if no line before is faulty.
pub struct Reading {
    pub lines: Vec<LineTold>,
    pub is_open_at_end: bool,
}

pub fn reading(input: &[u8]) -> Reading {
    let unfolded = unfolded(input);
    let kept: Vec<u8> = unfolded.iter().map(|(_, byte)| *byte).collect();
    let mut open = Open { stack: Vec::new() };
    let mut told = Vec::new();
    for line in lines(&kept) {
        let lent = |at: usize| unfolded[line.start + at].0;
        let mut names = Vec::new();
        let mut value = None;
        let fault = match content(&line) {
            None => Some(4),
            Some(content) => {
                names = content.names_at.iter().map(|at| lent(*at)).collect();
                value = Some(lent(content.value_at));
                let stands = open.takes(&content);
                let property = content.name != "BEGIN" && content.name != "END";
                let component = content.name == "BEGIN" && !is_component_name(&content.value.to_ascii_uppercase());
                if component || property && !is_carried(&content.name) || !content.parameters.iter().all(|name| is_carried(name)) {
                    Some(5)
                } else if !stands {
                    Some(6)
                } else {
                    None
                }
            }
        };
        told.push(LineTold { start: lent(0), names, value, fault });
        if fault.is_some() {
            break;
        }
    }
    Reading { is_open_at_end: told.is_empty() || !open.stack.is_empty(), lines: told }
}

/// A line of text folded: each piece as many whole characters as fit into 75 octets, the leading space of a continuation counted.
pub fn folded(line: &str) -> String {
    let mut text = String::new();
    let mut room = 75;
    for c in line.chars() {
        if c.len_utf8() > room {
            text.push_str("\r\n ");
            room = 74;
        }
        room -= c.len_utf8();
        text.push(c);
    }
    text + "\r\n"
}

/// A piece of canonical XML: a start tag or an end tag, with its name, or the characters between two tags.
#[derive(Clone, Copy, Debug, PartialEq, Eq)]
pub enum Piece<'a> {
    Start(&'a str),
    End(&'a str),
    Characters(&'a str),
}

pub const FRONT: &str = "<?xml version=\"1.0\" encoding=\"utf-8\"?>\n<icalendar xmlns=\"urn:ietf:params:xml:ns:icalendar-2.0\">";
pub const BACK: &str = "</icalendar>\n";

/// The pieces between the root's tags.
pub fn pieces(xml: &str) -> Vec<Piece<'_>> {
    let mut rest = xml.strip_prefix(FRONT).and_then(|rest| rest.strip_suffix(BACK)).expect("a canonical document");
    let mut pieces = Vec::new();
    while !rest.is_empty() {
        if let Some(tag) = rest.strip_prefix('<') {
            let (name, behind) = tag.split_once('>').expect("a tag has an end");
            pieces.push(match name.strip_prefix('/') {
                Some(name) => Piece::End(name),
                None => Piece::Start(name),
            });
            rest = behind;
        } else {
            let (characters, behind) = rest.split_at(rest.find('<').expect("an end tag follows characters"));
            pieces.push(Piece::Characters(characters));
            rest = behind;
        }
    }
    pieces
}

/// Every start tag has its end tag, names are names, characters are escaped and stand in elements that hold nothing else.
pub fn assert_canonical(xml: &[u8]) {
    let xml = std::str::from_utf8(xml).expect("XML is UTF-8");
    let pieces = pieces(xml);
    let mut open = Vec::new();
    for (i, piece) in pieces.iter().enumerate() {
        match piece {
            Piece::Start(name) => {
                assert!(name.starts_with(|c: char| c.is_ascii_lowercase()), "{name}");
                assert!(name.chars().all(|c| c.is_ascii_lowercase() || c.is_ascii_digit() || c == '-'), "{name}");
                open.push(*name);
                assert!(open.len() < 16, "{open:?}");
            }
            Piece::End(name) => assert_eq!(open.pop(), Some(*name)),
            Piece::Characters(characters) => {
                assert!(matches!(pieces[i - 1], Piece::Start(_)) && matches!(pieces[i + 1], Piece::End(_)), "{characters}");
                let plain = characters.replace("&amp;", "").replace("&lt;", "").replace("&gt;", "");
                assert!(!plain.contains(['&', '<', '>', '\r']), "{characters}");
            }
        }
    }
    assert!(open.is_empty());
}

/// Canonical text: every line is folded as `folded` does it, and its name is in capitals.
pub fn assert_folded(text: &[u8]) {
    for line in lines(text) {
        assert!(line.is_ended && line.bytes.len() <= 75, "{:?}", String::from_utf8_lossy(line.bytes));
        assert!(std::str::from_utf8(line.bytes).is_ok());
    }
    let kept = kept_of(text);
    let again: String = lines(&kept).iter().map(|line| folded(std::str::from_utf8(line.bytes).unwrap())).collect();
    assert_eq!(again.as_bytes(), text);
    for line in lines(&kept) {
        let (name, _) = name_of(std::str::from_utf8(line.bytes).unwrap()).expect("a line has a name");
        assert!(!name.contains(|c: char| c.is_ascii_lowercase()), "{name}");
    }
}

/// A JSON text with no white space outside strings, and in strings no escapes but those of quote, backslash, LF and TAB; its value is an array.
pub fn assert_canonical_json(json: &[u8]) {
    assert_eq!(json.first(), Some(&b'['));
    let end = json_value(json, 0);
    assert_eq!(end, json.len(), "something behind the value");
}

/// Where the value at a place ends.
fn json_value(json: &[u8], at: usize) -> usize {
    match json[at] {
        b'[' => json_items(json, at + 1, b']', json_value),
        b'{' => json_items(json, at + 1, b'}', |json, at| {
            let name = json_string(json, at);
            assert_eq!(json[name], b':');
            json_value(json, name + 1)
        }),
        b'"' => json_string(json, at),
        _ => {
            let length = json[at..].iter().position(|b| b",]}".contains(b)).expect("a value ends");
            let word = std::str::from_utf8(&json[at..at + length]).unwrap();
            assert!(matches!(word, "true" | "false") || is_canonical_number(word), "{word}");
            at + length
        }
    }
}

/// Where items that are separated by commas end, behind the closing bracket.
fn json_items(json: &[u8], at: usize, close: u8, item: impl Fn(&[u8], usize) -> usize) -> usize {
    if json[at] == close {
        return at + 1;
    }
    let mut end = item(json, at);
    while json[end] == b',' {
        end = item(json, end + 1);
    }
    assert_eq!(json[end], close);
    end + 1
}

fn json_string(json: &[u8], at: usize) -> usize {
    assert_eq!(json[at], b'"');
    let mut at = at + 1;
    loop {
        match json[at] {
            b'"' => return at + 1,
            b'\\' => {
                assert!(b"\"\\nt".contains(&json[at + 1]), "an escape that is not canonical at {at}");
                at += 2;
            }
            byte => {
                assert!(byte >= b' ' && byte != 0x7f, "a control in a string at {at}");
                at += 1;
            }
        }
    }
}

/// Digits with no needless zeros, and perhaps a sign and a fraction.
fn is_canonical_number(word: &str) -> bool {
    let digits = |s: &str| !s.is_empty() && s.bytes().all(|b| b.is_ascii_digit());
    let bare = word.strip_prefix('-').unwrap_or(word);
    let (whole, fraction) = bare.split_once('.').map_or((bare, None), |(whole, fraction)| (whole, Some(fraction)));
    digits(whole) && (whole == "0" || !whole.starts_with('0')) && fraction.map_or(true, |f| digits(f) && !f.ends_with('0'))
}
