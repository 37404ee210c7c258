//! What is measured: texts and documents of about a given length, the same in every run.

/// Inputs of a kind, of any length: pieces between a front and a back, and what stands around them.
pub struct Kind {
    /// What it is.
    pub name: &'static str,
    around: Around,
    front: &'static str,
    piece: Piece,
    back: &'static str,
}

type Around = (&'static str, &'static str);

enum Piece {
    Same(&'static str),
    Numbered(fn(usize) -> String),
}

/// The same piece again and again.
const fn same(name: &'static str, around: Around, front: &'static str, piece: &'static str, back: &'static str) -> Kind {
    Kind { name, around, front, piece: Piece::Same(piece), back }
}

/// Pieces by their numbers.
const fn numbered(name: &'static str, around: Around, front: &'static str, piece: fn(usize) -> String, back: &'static str) -> Kind {
    Kind { name, around, front, piece: Piece::Numbered(piece), back }
}

impl Kind {
    /// As many pieces as fit into `length` bytes.
    pub fn of_length(&self, length: usize) -> Vec<u8> {
        let mut input = format!("{}{}", self.around.0, self.front);
        let back = format!("{}{}", self.back, self.around.1);
        for i in 0.. {
            let piece = match self.piece {
                Piece::Same(piece) => String::from(piece),
                Piece::Numbered(piece) => piece(i),
            };
            if input.len() + piece.len() + back.len() > length {
                break;
            }
            input.push_str(&piece);
        }
        input.push_str(&back);
        input.into_bytes()
    }
}

const NOTHING: Around = ("", "");
const CALENDAR: Around = ("BEGIN:VCALENDAR\r\nPRODID:-//Lakewatch//Rota//EN\r\nVERSION:2.0\r\n", "END:VCALENDAR\r\n");
const OPEN_CALENDAR: Around = (CALENDAR.0, "");
const EVENT: Around = (
    "BEGIN:VCALENDAR\r\nPRODID:-//Lakewatch//Rota//EN\r\nVERSION:2.0\r\nBEGIN:VEVENT\r\nUID:r1\r\nDTSTAMP:20240501T060000Z\r\nDTSTART:20240504T080000\r\n",
    "END:VEVENT\r\nEND:VCALENDAR\r\n",
);

const WATCHES: [&str; 4] = ["Read glass", "Row out to the buoy", "Phone <office> & log", "Évaluer la glace\\, lire l’échelle"];
const PEOPLE: [&str; 5] = ["ada", "bela", "cyr", "dagny", "edda"];

/// A line folded as the rules say.
fn folded(line: &str) -> String {
    let mut text = String::new();
    let mut column = 0;
    for c in line.chars() {
        if column + c.len_utf8() > 75 {
            text.push_str("\r\n ");
            column = 1;
        }
        text.push(c);
        column += c.len_utf8();
    }
    text.push_str("\r\n");
    text
}

fn event(i: usize) -> String {
    let (who, next) = (PEOPLE[i % 5], PEOPLE[(i + 1) % 5]);
    let (month, day, hour) = (i % 12 + 1, i % 28 + 1, i % 16 + 4);
    let mut event = format!("BEGIN:VEVENT\r\nUID:rota-{i}@lakewatch.example\r\nDTSTAMP:20240501T060000Z\r\n");
    event += &format!("DTSTART;TZID=Europe/Lake:2024{month:02}{day:02}T{hour:02}0000\r\nDTEND;TZID=Europe/Lake:2024{month:02}{day:02}T{:02}3000\r\n", hour + 3);
    event += &folded(&format!("SUMMARY:{}", WATCHES[i % 4]));
    event += &folded(&format!("LOCATION;LANGUAGE=en:Jetty {}\\, north shore", i % 9));
    event += &folded(&format!("DESCRIPTION:Take the book and the key. Note level and wind every hour\\; phone\\nif the ice moves. Relief is {next}."));
    event += "CATEGORIES:WATCH,ROTA\r\nSTATUS:CONFIRMED\r\nSEQUENCE:2\r\nPRIORITY:5\r\nTRANSP:OPAQUE\r\n";
    event += &folded(&format!("ORGANIZER;CN=\"Office, north\";SENT-BY=\"mailto:{who}@lakewatch.example\":mailto:office@lakewatch.example"));
    event += &folded(&format!("ATTENDEE;CN={who};ROLE=REQ-PARTICIPANT;PARTSTAT=ACCEPTED;RSVP=TRUE:mailto:{who}@lakewatch.example"));
    event += &folded(&format!("ATTENDEE;CN={next};ROLE=OPT-PARTICIPANT;PARTSTAT=NEEDS-ACTION:mailto:{next}@lakewatch.example"));
    if i % 3 == 1 {
        event += "RRULE:FREQ=WEEKLY;COUNT=10;INTERVAL=2;BYDAY=MO,WE,FR\r\nEXDATE;TZID=Europe/Lake:20240601T080000,20240615T080000\r\n";
    }
    if i % 2 == 1 {
        event += "BEGIN:VALARM\r\nACTION:DISPLAY\r\nTRIGGER:-PT30M\r\nDESCRIPTION:Watch begins\r\nEND:VALARM\r\n";
    }
    event + "END:VEVENT\r\n"
}

fn long_text(i: usize) -> String {
    let sentences: String = (0..30).map(|k| format!("{} at {}\\, then write down what the gauge shows\\; ", WATCHES[(i + k) % 4], k)).collect();
    format!("BEGIN:VEVENT\r\nUID:{i}\r\nDTSTAMP:20240501T060000Z\r\nDTSTART:20240504T080000\r\n{}END:VEVENT\r\n", folded(&format!("DESCRIPTION:{sentences}")))
}

fn zone(i: usize) -> String {
    let mut zone = format!("BEGIN:VTIMEZONE\r\nTZID:Zone/{i}\r\nLAST-MODIFIED:20240501T060000Z\r\nTZURL:http://zones.example/{i}.ics\r\n");
    for k in 0..6 {
        let (name, from, to) = if k % 2 == 0 { ("DAYLIGHT", "+0100", "+0200") } else { ("STANDARD", "+0200", "+0100") };
        zone += &format!("BEGIN:{name}\r\nDTSTART:{}0331T020000\r\nTZOFFSETFROM:{from}\r\nTZOFFSETTO:{to}\r\nTZNAME:Z{i}T\r\n", 1980 + k);
        zone += "RRULE:FREQ=YEARLY;UNTIL=19951029T010000Z;BYDAY=-1SU;BYMONTH=3\r\nRDATE:19800406T020000,19810329T020000\r\n";
        zone += &format!("END:{name}\r\n");
    }
    zone + "END:VTIMEZONE\r\n"
}

/// A short name of its own for each number.
fn name(mut i: usize) -> String {
    let mut name = String::from("Q");
    while i > 0 {
        name.push(char::from(b"0123456789ABCDEFGHIJKLMNOPQRSTUVWXYZ"[i % 36]));
        i /= 36;
    }
    name
}

/// Texts such as are met.
pub const ROTAS: [Kind; 3] = [
    numbered("rota of events", CALENDAR, "", event, ""),
    numbered("long folded texts", CALENDAR, "", long_text, ""),
    numbered("time zones", CALENDAR, "", zone, ""),
];
/// Texts made to be slow. One whose name says so is refused.
pub const WORST_TEXTS: [Kind; 27] = [
    numbered("parameters on a line", EVENT, "A", |i| format!(";{}=", name(i)), ":\r\n"),
    same("values of a parameter", EVENT, "A;B=", ",", ":\r\n"),
    same("members of a parameter", EVENT, "ATTENDEE;MEMBER=\"a:\"", ",\"a:\"", ":a:\r\n"),
    same("one-byte properties", EVENT, "", "A:\r\n", ""),
    same("known properties", EVENT, "", "COMMENT:\r\n", ""),
    same("items of CATEGORIES", EVENT, "CATEGORIES:", ",", "\r\n"),
    same("items of a rule", EVENT, "RRULE:FREQ=DAILY;BYHOUR=1", ",1", "\r\n"),
    same("items before FREQ", EVENT, "RRULE:BYSETPOS=1", ",1", ";FREQ=DAILY\r\n"),
    same("dates of EXDATE", EVENT, "EXDATE;VALUE=DATE:20240504", ",20240504", "\r\n"),
    same("periods of RDATE", EVENT, "RDATE;VALUE=PERIOD:20240504T080000/PT1H", ",20240504T080000/PT1H", "\r\n"),
    same("digits of a FLOAT", EVENT, "GEO:1", "1", ".5;0\r\n"),
    same("zeros behind a point", EVENT, "GEO:1.0", "0", ";0\r\n"),
    same("zeros before a digit", EVENT, "GEO:1.0", "0", "1;0\r\n"),
    same("zeros of an INTEGER", EVENT, "PRIORITY:0", "0", "\r\n"),
    same("digits of a DURATION", EVENT, "DURATION:P0", "0", "D\r\n"),
    same("one long TEXT", EVENT, "DESCRIPTION:", "a", "\r\n"),
    same("letters of three bytes", EVENT, "DESCRIPTION:", "€", "\r\n"),
    same("one long name", EVENT, "A", "A", ":\r\n"),
    same("one long parameter value", EVENT, "A;B=\"", "a", "\":\r\n"),
    same("one long REQUEST-STATUS", EVENT, "REQUEST-STATUS:2.0;", "\\,", "\r\n"),
    same("TEXT that grows", EVENT, "DESCRIPTION:", "&", "\r\n"),
    same("one long BINARY", EVENT, "ATTACH;VALUE=BINARY;ENCODING=BASE64:", "AAAA", "\r\n"),
    same("a fold behind each byte", EVENT, "DESCRIPTION:", "a\r\n ", "\r\n"),
    same("alarms of an event", EVENT, "", "BEGIN:VALARM\r\nACTION:AUDIO\r\nTRIGGER:P1D\r\nEND:VALARM\r\n", ""),
    same("empty calendars", NOTHING, "", "BEGIN:VCALENDAR\r\nPRODID:\r\nVERSION:2.0\r\nEND:VCALENDAR\r\n", ""),
    numbered("refused in the last line", OPEN_CALENDAR, "", event, "END:VEVENT\r\n"),
    same("refused behind folds", OPEN_CALENDAR, "A:", "\r\n ", "\r\n:\r\n"),
];

const ROOT: Around = ("<icalendar xmlns=\"urn:ietf:params:xml:ns:icalendar-2.0\">", "</icalendar>\n");
const XML_EVENT: Around = (
    "<icalendar xmlns=\"urn:ietf:params:xml:ns:icalendar-2.0\"><vcalendar><properties><prodid><text>r</text></prodid><version><text>2.0</text></version></properties><components><vevent><properties>\
     <uid><text>r1</text></uid><dtstamp><date-time>2024-05-01T06:00:00Z</date-time></dtstamp><dtstart><date-time>2024-05-04T08:00:00</date-time></dtstart>",
    "</properties></vevent></components></vcalendar></icalendar>\n",
);
const XML_ALARMS: Around = (
    "<icalendar xmlns=\"urn:ietf:params:xml:ns:icalendar-2.0\"><vcalendar><properties><prodid><text>r</text></prodid><version><text>2.0</text></version></properties><components><vevent><properties>\
     <uid><text>r1</text></uid><dtstamp><date-time>2024-05-01T06:00:00Z</date-time></dtstamp><dtstart><date-time>2024-05-04T08:00:00</date-time></dtstart></properties><components>",
    "</components></vevent></components></vcalendar></icalendar>\n",
);
const WHOLE_DOCUMENT: Around = (
    "<icalendar xmlns=\"urn:ietf:params:xml:ns:icalendar-2.0\"><vcalendar><properties><prodid><text/></prodid><version><text>2.0</text></version></properties><components/></vcalendar></icalendar>",
    "",
);

/// Documents made to be slow.
pub const WORST_DOCUMENTS: [Kind; 39] = [
    numbered("parameters of a property", XML_EVENT, "<a><parameters>", |i| format!("<{0}><unknown/></{0}>", small_name(i)), "</parameters><unknown/></a>"),
    same("values of a parameter", XML_EVENT, "<a><parameters><b>", "<unknown/>", "</b></parameters><unknown/></a>"),
    same("one-byte properties", XML_EVENT, "", "<a><unknown/></a>", ""),
    same("known properties", XML_EVENT, "", "<comment><text/></comment>", ""),
    same("items of CATEGORIES", XML_EVENT, "<categories>", "<text/>", "</categories>"),
    same("items of a rule", XML_EVENT, "<rrule><recur><freq>DAILY</freq>", "<byhour>1</byhour>", "</recur></rrule>"),
    same("dates of EXDATE", XML_EVENT, "<exdate>", "<date>2024-05-04</date>", "</exdate>"),
    same("periods of RDATE", XML_EVENT, "<rdate>", "<period><start>2024-05-04T08:00:00</start><duration>PT1H</duration></period>", "</rdate>"),
    same("digits of a FLOAT", XML_EVENT, "<geo><latitude>1", "1", ".5</latitude><longitude>0</longitude></geo>"),
    same("zeros behind a point", XML_EVENT, "<geo><latitude>1.0", "0", "</latitude><longitude>0</longitude></geo>"),
    same("zeros before a digit", XML_EVENT, "<geo><latitude>1.0", "0", "1</latitude><longitude>0</longitude></geo>"),
    same("zeros of an INTEGER", XML_EVENT, "<priority><integer>0", "0", "</integer></priority>"),
    same("digits of a DURATION", XML_EVENT, "<duration><duration>P0", "0", "D</duration></duration>"),
    same("one long TEXT", XML_EVENT, "<description><text>", "a", "</text></description>"),
    same("letters of three bytes", XML_EVENT, "<description><text>", "€", "</text></description>"),
    same("brackets in TEXT", XML_EVENT, "<description><text>", "]", "</text></description>"),
    same("CR in TEXT", XML_EVENT, "<description><text>", "\r", "</text></description>"),
    same("one long parameter value", XML_EVENT, "<a><parameters><b><unknown>", "a", "</unknown></b></parameters><unknown/></a>"),
    same("one long REQUEST-STATUS", XML_EVENT, "<request-status><code>2.0</code><description>", ";", "</description></request-status>"),
    same("TEXT that grows", XML_EVENT, "<description><text>", ";", "</text></description>"),
    same("references in TEXT", XML_EVENT, "<description><text>", "&#65;", "</text></description>"),
    same("references in a URI", XML_EVENT, "<url><uri>a:", "&#65;", "</uri></url>"),
    same("references in a parameter", XML_EVENT, "<a><parameters><b><unknown>", "&#65;", "</unknown></b></parameters><unknown/></a>"),
    same("references in a number", XML_EVENT, "<priority><integer>", "&#48;", "</integer></priority>"),
    same("references to four bytes", XML_EVENT, "<description><text>", "&#65536;", "</text></description>"),
    same("one long reference", XML_EVENT, "<description><text>&#", "0", "65;</text></description>"),
    numbered("long references", XML_EVENT, "<description><text>", |_| format!("&#{:0256};", 65), "</text></description>"),
    same("entities in TEXT", XML_EVENT, "<description><text>", "&amp;", "</text></description>"),
    same("one long BINARY", XML_EVENT, "<attach><parameters><encoding><text>BASE64</text></encoding></parameters><binary>", "AAAA", "</binary></attach>"),
    same("white space in BINARY", XML_EVENT, "<attach><parameters><encoding><text>BASE64</text></encoding></parameters><binary>", " ", "</binary></attach>"),
    same("white space between elements", XML_EVENT, "", "\n", ""),
    same("white space in a list", XML_EVENT, "<categories>", "\n<text/>", "</categories>"),
    same("white space in a rule", XML_EVENT, "<rrule><recur><freq>DAILY</freq>", "\n", "<wkst>MO</wkst></recur></rrule>"),
    same("white space in parameters", XML_EVENT, "<a><parameters>", "\n", "<b><unknown/></b></parameters><unknown/></a>"),
    same("white space behind the root", WHOLE_DOCUMENT, "", "\n", ""),
    same("white space in a tag", XML_EVENT, "<a", " ", "><unknown/></a>"),
    same("alarms of an event", XML_ALARMS, "", ALARM, ""),
    same("empty calendars", ROOT, "", EMPTY, ""),
    same("refused in the last property", XML_EVENT, "", "<comment><text/></comment>", "<comment/>"),
];
const ALARM: &str = "<valarm><properties><action><text>AUDIO</text></action><trigger><duration>P1D</duration></trigger></properties></valarm>";
const EMPTY: &str = "<vcalendar><properties><prodid><text/></prodid><version><text>2.0</text></version></properties><components/></vcalendar>";
fn small_name(i: usize) -> String {
    name(i).to_ascii_lowercase()
}
