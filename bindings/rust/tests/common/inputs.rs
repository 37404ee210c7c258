//! Seeded inputs: calendars, the same calendars written otherwise, and damaged ones. The same in every run.

use super::readings::{pieces, Piece, BACK, FRONT};

/// xorshift64: good enough to choose inputs, and the same everywhere.
pub struct Random(u64);

impl Random {
    pub fn new(seed: u64) -> Random {
        Random(seed.wrapping_mul(0x9e37_79b9_7f4a_7c15) | 1)
    }

    fn next(&mut self) -> u64 {
        self.0 ^= self.0 << 13;
        self.0 ^= self.0 >> 7;
        self.0 ^= self.0 << 17;
        self.0
    }

    /// A number below `bound`.
    pub fn below(&mut self, bound: usize) -> usize {
        ((self.next() >> 16) % bound as u64) as usize
    }

    pub fn one_in(&mut self, n: usize) -> bool {
        self.below(n) == 0
    }

    pub fn choose<T: Copy>(&mut self, of: &[T]) -> T {
        of[self.below(of.len())]
    }
}

const STRAY: [&str; 26] = [
    "a", "B", "7", " ", "-", ".", "é", "€", "𝄞", "\t", "<", ">", "&", "'", "]]>", "=", "^", "%", "/", "watch", "Seeufer", "\u{80}", "\u{2028}", "\u{feff}",
    "&amp", "#",
];

/// Characters of TEXT, a few or enough for folds.
fn text(r: &mut Random) -> String {
    let length = if r.one_in(4) { r.below(200) } else { r.below(12) };
    (0..length).map(|_| if r.one_in(6) { r.choose(&["\\n", "\\N", "\\,", "\\;", "\\\\", ":", "\""]) } else { r.choose(&STRAY) }).collect()
}

/// Characters of a parameter's value, between quotes where they must be.
fn parameter(r: &mut Random) -> String {
    let length = r.below(8);
    let plain: String = (0..length).map(|_| r.choose(&STRAY)).collect();
    if r.one_in(3) {
        format!("\"{plain}{}\"", r.choose(&["", ":", ";", ","]))
    } else {
        plain
    }
}

fn number(r: &mut Random) -> String {
    format!("{}{}{}", r.choose(&["", "", "-", "+"]), r.choose(&["", "0", "00"]), r.below(1000))
}

fn date(r: &mut Random) -> String {
    format!("{:04}{:02}{:02}", r.below(10_000), 1 + r.below(12), 1 + r.below(28))
}

fn date_time(r: &mut Random) -> String {
    format!("{}{}{:02}{:02}{:02}{}", date(r), r.choose(&["T", "T", "t"]), r.below(24), r.below(60), r.below(61), r.choose(&["", "Z", "z"]))
}

fn duration(r: &mut Random) -> String {
    let length = r.choose(&["P1W", "P02DT3H", "PT1H0M5S", "PT5S", "p1dt2h3m", "PT0M"]);
    format!("{}{length}", r.choose(&["", "+", "-"]))
}

fn offset(r: &mut Random) -> String {
    format!("{}{:02}{:02}{}", r.choose(&["+", "-"]), r.below(24), 1 + r.below(59), r.choose(&["", "00", "30"]))
}

fn address(r: &mut Random) -> String {
    format!("{}:{}", r.choose(&["mailto", "http", "x-a.b+c"]), r.choose(&["", "a@lake.example", "//lake.example/a,b;c?d='e'"]))
}

/// Parts of a rule in any order.
fn rule(r: &mut Random) -> String {
    let mut parts = vec![format!("{}={}", r.choose(&["FREQ", "freq"]), r.choose(&["DAILY", "Weekly", "YEARLY", "secondly"]))];
    match r.below(4) {
        0 => parts.push(format!("COUNT={}", 1 + r.below(50))),
        1 => parts.push(format!("UNTIL={}", date(r))),
        2 => parts.push(format!("until={}", date_time(r))),
        _ => {}
    }
    for part in [
        "INTERVAL=002",
        "BYSECOND=0,60",
        "BYMINUTE=59",
        "BYHOUR=1,02,23",
        "BYDAY=MO,-1su,+2FR",
        "BYMONTHDAY=-31,1",
        "BYYEARDAY=366",
        "BYWEEKNO=-53",
        "BYMONTH=1,12",
        "BYSETPOS=+1",
        "WKST=mo",
    ] {
        if r.one_in(4) {
            let at = r.below(parts.len() + 1);
            parts.insert(at, String::from(part));
        }
    }
    parts.join(";")
}

fn unknown(r: &mut Random) -> String {
    match r.below(7) {
        0 => format!("X-NOTE:{}", text(r)),
        1 => format!("x-a;X-P={},{};value=date-time:{}", parameter(r), parameter(r), date_time(r)),
        2 => format!("COLOR;VALUE=BOOLEAN:{}", r.choose(&["TRUE", "False"])),
        3 => format!("Q;VALUE=FLOAT;CN={}:{}.50", parameter(r), number(r)),
        4 => format!("Q;VALUE=TIME:{:02}{:02}00", r.below(24), r.below(60)),
        5 => format!("Q;VALUE=RECUR:{}", rule(r)),
        _ => format!("Q;VALUE=PERIOD:{}/{}", date_time(r), duration(r)),
    }
}

/// A property that may stand in a VEVENT at most once.
fn once(r: &mut Random, k: usize) -> String {
    match k {
        0 => format!("CLASS:{}", r.choose(&["PUBLIC", "private"])),
        1 => format!("DESCRIPTION;ALTREP=\"{}\":{}", address(r), text(r)),
        2 => format!("GEO:{}.{};{}", number(r), r.choose(&["0", "50", "25"]), number(r)),
        3 => format!("LOCATION;LANGUAGE={}:{}", parameter(r), text(r)),
        4 => format!("ORGANIZER;CN={};SENT-BY=\"{}\":{}", parameter(r), address(r), address(r)),
        5 => format!("PRIORITY:{}", number(r)),
        6 => format!("Sequence:{}", number(r)),
        7 => format!("STATUS:{}", r.choose(&["TENTATIVE", "confirmed"])),
        8 => format!("SUMMARY;X-P={}:{}", parameter(r), text(r)),
        9 => format!("URL:{}", address(r)),
        10 => format!("RECURRENCE-ID;RANGE=THISANDFUTURE;VALUE=DATE:{}", date(r)),
        11 => format!("RRULE:{}", rule(r)),
        _ => {
            if r.one_in(2) {
                format!("DTEND;VALUE=DATE:{}", date(r))
            } else {
                format!("DURATION:{}", duration(r))
            }
        }
    }
}

/// A property that may stand in a VEVENT any number of times.
fn often(r: &mut Random) -> String {
    match r.below(10) {
        0 => format!("ATTACH;FMTTYPE=text/plain:{}", address(r)),
        1 => format!("ATTACH;VALUE=BINARY;ENCODING=base64:{}", r.choose(&["", "AAAA", "Zg==", "Zm8=", "Zm9v+/9A"])),
        2 => format!("ATTENDEE;CN={};ROLE=chair;RSVP=true;MEMBER=\"{}\",\"{}\":{}", parameter(r), address(r), address(r), address(r)),
        3 => format!("CATEGORIES:{},{}", text(r), text(r)),
        4 => format!("COMMENT:{}", text(r)),
        5 => format!("EXDATE;TZID={}:{},{}", parameter(r), date_time(r), date_time(r)),
        6 => format!("REQUEST-STATUS:2.0;{}{}", text(r), r.choose(&["", ";", ";more"])),
        7 => format!("RELATED-TO;RELTYPE={}:{}", r.choose(&["PARENT", "sibling"]), text(r)),
        8 => format!("RDATE;VALUE=PERIOD:{}/{},{}/{}", date_time(r), date_time(r), date_time(r), duration(r)),
        _ => unknown(r),
    }
}

fn event(r: &mut Random, lines: &mut Vec<String>) {
    lines.push(format!("UID:{}", text(r)));
    lines.push(format!("DTSTAMP:{}", date_time(r)));
    lines.push(format!("DTSTART;TZID={}:{}", parameter(r), date_time(r)));
    for k in 0..13 {
        if r.one_in(4) {
            lines.push(once(r, k));
        }
    }
    for _ in 0..r.below(5) {
        lines.push(often(r));
    }
    for _ in 0..r.choose(&[0, 0, 1, 2]) {
        lines.push(String::from("BEGIN:VALARM"));
        lines.push(String::from("ACTION:DISPLAY"));
        lines.push(format!("DESCRIPTION:{}", text(r)));
        lines.push(format!("TRIGGER;RELATED=END:{}", duration(r)));
        lines.push(String::from("end:Valarm"));
    }
}

fn zone(r: &mut Random, lines: &mut Vec<String>) {
    let mut own = vec![format!("TZID:{}", text(r)), format!("TZURL:{}", address(r)), unknown(r)];
    for k in 0..1 + r.below(3) {
        if r.one_in(3) {
            lines.extend(own.pop());
        }
        let name = if k % 2 == 0 { "STANDARD" } else { "DAYLIGHT" };
        lines.push(format!("BEGIN:{name}"));
        lines.push(format!("DTSTART:{}", date_time(r)));
        lines.push(format!("TZOFFSETFROM:{}", offset(r)));
        lines.push(format!("TZOFFSETTO:{}", offset(r)));
        lines.push(format!("RDATE:{}", date_time(r)));
        lines.push(format!("RRULE:{}", rule(r)));
        lines.push(format!("END:{name}"));
    }
    lines.append(&mut own);
}

/// A calendar as lines, nearly always an accepted one.
pub fn calendar(r: &mut Random) -> Vec<String> {
    let mut lines = Vec::new();
    for _ in 0..r.choose(&[1, 1, 1, 2]) {
        lines.push(String::from("BEGIN:VCALENDAR"));
        lines.push(format!("PRODID:{}", text(r)));
        lines.push(String::from("VERSION:2.0"));
        for _ in 0..r.below(4) {
            let name = r.choose(&["VEVENT", "vevent", "VTODO", "VJOURNAL", "VFREEBUSY", "VTIMEZONE"]);
            lines.push(format!("BEGIN:{name}"));
            match name {
                "VTIMEZONE" => zone(r, &mut lines),
                "VEVENT" | "vevent" => event(r, &mut lines),
                _ => {
                    lines.push(format!("DTSTAMP:{}", date_time(r)));
                    lines.push(format!("COMMENT:{}", text(r)));
                    lines.push(format!("ATTENDEE;CUTYPE=ROOM:{}", address(r)));
                    lines.push(format!("UID:{}", text(r)));
                    lines.push(unknown(r));
                    if name == "VFREEBUSY" {
                        lines.push(format!("FREEBUSY;FBTYPE=BUSY:{}/{}", date_time(r), duration(r)));
                    }
                }
            }
            lines.push(format!("END:{name}"));
        }
        lines.push(String::from("END:VCALENDAR"));
    }
    lines
}

/// Lines as a text without folds.
pub fn unfolded_text(lines: &[String]) -> Vec<u8> {
    lines.iter().flat_map(|line| [line.as_bytes(), b"\r\n"].concat()).collect()
}

/// The same bytes with folds anywhere, inside letters and line ends too.
pub fn with_folds(r: &mut Random, kept: &[u8]) -> Vec<u8> {
    let every = r.choose(&[3, 20, 75]);
    let mut text = Vec::new();
    for byte in kept {
        while r.one_in(every) {
            text.extend_from_slice(r.choose(&["\r\n ", "\r\n\t"]).as_bytes());
        }
        text.push(*byte);
    }
    text
}

/// Mostly a printable one.
fn byte(r: &mut Random) -> u8 {
    if r.one_in(8) {
        r.below(256) as u8
    } else {
        32 + r.below(95) as u8
    }
}

/// Some bytes changed, taken out, put in, said twice or moved, or the end cut off.
pub fn damaged(r: &mut Random, input: &[u8], tokens: &[&str]) -> Vec<u8> {
    let mut bytes = input.to_vec();
    for _ in 0..1 + r.below(3) {
        let at = r.below(bytes.len() + 1);
        let to = (at + 1 + r.below(12)).min(bytes.len());
        match r.below(8) {
            0 if at < bytes.len() => bytes[at] = byte(r),
            1 if at < bytes.len() => bytes[at] ^= 1 << r.below(7),
            2 => drop(bytes.drain(at..to)),
            3 => bytes.insert(at, byte(r)),
            4 => {
                let again = bytes[at..to].to_vec();
                bytes.splice(at..at, again);
            }
            5 => {
                let moved: Vec<u8> = bytes.drain(at..to).collect();
                let place = r.below(bytes.len() + 1);
                bytes.splice(place..place, moved);
            }
            6 if r.one_in(4) => bytes.truncate(at),
            _ => {
                let token = r.choose(tokens);
                // a whole line goes between lines
                let place = if token.ends_with("\r\n") { at + bytes[at..].windows(2).position(|pair| pair == b"\r\n").map_or(0, |to| to + 2) } else { at };
                bytes.splice(place..place, token.bytes());
            }
        }
    }
    bytes
}

/// Words that damage a text.
pub const TEXT_TOKENS: [&str; 24] = [
    "\r\n",
    "\r\n ",
    "\r",
    "\n",
    ":",
    ";",
    ",",
    "\"",
    "=",
    "\\",
    "BEGIN:VEVENT\r\n",
    "END:VEVENT\r\n",
    "BEGIN:VALARM\r\n",
    "END:VCALENDAR\r\n",
    "DUE:20240101\r\n",
    ";VALUE=DATE",
    ";X=1;x=2",
    "XML-A:1\r\n",
    "-A:1\r\n",
    "\u{7f}",
    "\u{ffff}",
    "\u{fffe}",
    "\r\n\r\n ",
    "0",
];

/// Words that damage a document.
pub const XML_TOKENS: [&str; 24] = [
    "<",
    ">",
    "&",
    "]]>",
    "&#0;",
    "&#65;",
    "&#x10FFFF;",
    "&#xD800;",
    "&amp",
    "<!-- -->",
    "<![CDATA[x]]>",
    "<text>",
    "</text>",
    "<unknown/>",
    "<begin><unknown/></begin>",
    "<value/>",
    "<X/>",
    "<components/>",
    "<parameters/>",
    " a=\"b\"",
    "\r",
    "\u{7f}",
    "\u{ffff}",
    "<a><a><a><a><a><a><a><a><a><a><a><a><a><a><a><a></a>",
];

/// Elements that a well-formed document may gain.
const ELEMENTS: [&str; 16] = [
    "<begin><unknown></unknown></begin>",
    "<a><unknown>x</unknown></a>",
    "<A><unknown></unknown></A>",
    "<xml-a><unknown></unknown></xml-a>",
    "<value><text>DATE</text></value>",
    "<components></components>",
    "<parameters></parameters>",
    "<text>x</text>",
    "<date>2023-02-29</date>",
    "<uid><text></text></uid>",
    "<valarm><properties></properties></valarm>",
    "<due><date>2024-01-01</date></due>",
    "<b></b>",
    "<cn><text>\"</text></cn>",
    "x",
    " ",
];

/// Characters that a value may get.
const VALUES: [&str; 14] =
    ["", "x", "0", "-0", "2147483648", "2023-02-29", "2024-02-29", "2024-02-29T08:00:60Z", "-00:00", "P1D", "true", "MO", "\n", "a&amp;b"];

/// The piece behind the element, or the tag or characters, at the piece `at`.
fn behind(all: &[Piece<'_>], at: usize) -> usize {
    let mut open = 0;
    for (i, piece) in all.iter().enumerate().skip(at) {
        match piece {
            Piece::Start(_) => open += 1,
            Piece::End(_) => open -= 1,
            Piece::Characters(_) => {}
        }
        if open <= 0 {
            return i + 1;
        }
    }
    all.len()
}

/// A well-formed document of a canonical one: an element taken out, said twice, named otherwise or moved behind the next, something put in, or a value changed.
pub fn rearranged(r: &mut Random, canonical: &str) -> String {
    let all = pieces(canonical);
    let place = |piece: usize| FRONT.len() + all[..piece].iter().map(length).sum::<usize>();
    let at = r.below(all.len());
    let next = behind(&all, at);
    let (from, to) = (place(at), place(next));
    let (before, element, rest) = (&canonical[..from], &canonical[from..to], &canonical[to..]);
    match (all[at], r.below(5)) {
        (Piece::Characters(_), _) => format!("{before}{}{rest}", r.choose(&VALUES)),
        (Piece::Start(_), 0) => format!("{before}{rest}"),
        (Piece::Start(_), 1) => format!("{before}{element}{element}{rest}"),
        (Piece::Start(name), 2) => {
            let other = r.choose(&["a", "text", "unknown", "uri", "date", "uid", "dtend", "comment", "vevent", "cn", "X"]);
            let inner = &element[name.len() + 2..element.len() - name.len() - 3];
            format!("{before}<{other}>{inner}</{other}>{rest}")
        }
        (Piece::Start(_), 3) if matches!(all.get(next), Some(Piece::Start(_))) => {
            let (sibling, rest) = rest.split_at(place(behind(&all, next)) - to);
            format!("{before}{sibling}{element}{rest}")
        }
        _ => format!("{before}{}{element}{rest}", r.choose(&ELEMENTS)),
    }
}

/// How many bytes a piece has in the document.
fn length(piece: &Piece<'_>) -> usize {
    match piece {
        Piece::Start(name) => name.len() + 2,
        Piece::End(name) => name.len() + 3,
        Piece::Characters(characters) => characters.len(),
    }
}

fn spaces(r: &mut Random) -> &'static str {
    r.choose(&["", "", "\n", "  ", "\r\n\t", "\r"])
}

fn escaped(c: char) -> String {
    match c {
        '&' => String::from("&amp;"),
        '<' => String::from("&lt;"),
        '>' => String::from("&gt;"),
        other => String::from(other),
    }
}

/// A character in one of the ways to write it.
fn referred(r: &mut Random, c: char) -> String {
    match (r.below(4), c) {
        (0, _) => format!("&#{};", u32::from(c)),
        (1, _) => format!("&#x{}{:x};", r.choose(&["", "000"]), u32::from(c)),
        (2, _) => format!("&#x{:X};", u32::from(c)),
        (_, '\n') => String::from(r.choose(&["\r\n", "\r"])),
        (_, '"') => String::from("&quot;"),
        (_, '\'') => String::from("&apos;"),
        _ => escaped(c),
    }
}

/// The document of a canonical one with white space between elements, empty tags and references: the same calendar.
pub fn rewritten(r: &mut Random, canonical: &str) -> String {
    let mut xml = String::from(r.choose(&["", "<?xml version='1.0' encoding=\"UTF-8\" ?>\r\n \t", "<?xml version=\"1.0\"\nencoding='utf-8'?>"]));
    xml += r.choose(&[
        "<icalendar xmlns='urn:ietf:params:xml:ns:icalendar-2.0'>",
        &FRONT[FRONT.find("<icalendar").unwrap()..],
        "<icalendar\n xmlns = \"urn:ietf:params:xml:ns:icalendar-2.0\"\t>",
    ]);
    let all = pieces(canonical);
    let mut i = 0;
    while i < all.len() {
        match (all[i], all.get(i + 1)) {
            (Piece::Start(name), Some(Piece::End(_))) if r.one_in(2) => {
                xml += &format!("<{name}{}/>", spaces(r));
                i += 1;
            }
            (Piece::Start(name), next) => {
                xml += &format!("<{name}{}>", spaces(r));
                if matches!(next, Some(Piece::Start(_))) {
                    xml += spaces(r);
                }
            }
            (Piece::End(name), _) => xml += &format!("</{name}{}>{}", spaces(r), spaces(r)),
            (Piece::Characters(characters), _) => {
                let plain = characters.replace("&lt;", "<").replace("&gt;", ">").replace("&amp;", "&");
                let mut last = String::new();
                for c in plain.chars() {
                    let word = if r.one_in(5) { referred(r, c) } else { escaped(c) };
                    // a LF behind a CR would be one with it
                    last = if last == "\r" && word == "\n" { String::from("&#10;") } else { word };
                    xml += &last;
                }
            }
        }
        i += 1;
    }
    xml + BACK.trim_end() + spaces(r)
}
