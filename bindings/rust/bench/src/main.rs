//! How fast the conversions are, and how their time grows with the input.
//!
//!     cargo run --release --offline --bin bench [PART OF A NAME]
//!     valgrind --tool=callgrind --toggle-collect=mallettriton_to_xml target/release/bench --once to-xml "PART OF A NAME" 65535    (or to-xml-folded, to-jcal, to-text, jcal-to-text)
//!
//! The buffers are made once and not cleared between calls; every call is on the same input, with room enough. A time is processor time, the shortest of many runs, each of as many calls as
//! take some milliseconds, and what is compared takes turns, so that other work on the machine counts little. Growth is how much longer a call takes on 64 kB than on 8 kB: 8 is linear.
//! Where libical was found when this was built, it parses and prints the same text in the same run, for the way to text the text of the same rota; the ratio is its time to ours.
mod inputs;

use inputs::Kind;
use mallettriton::{jcal_to_text, jcal_to_text_into, to_jcal_into, to_text, to_text_into, to_xml_folded_into, to_xml_into, Answer, Edition, LONGEST};
use std::cell::RefCell;
use std::hint::black_box;

const SHORT: usize = 8_192;
const LONG: usize = LONGEST;

/// The processor time of this thread, in seconds (x86-64 Linux).
fn now() -> f64 {
    extern "C" {
        fn clock_gettime(clock: i32, time: *mut [i64; 2]) -> i32;
    }
    const THREAD_CPUTIME: i32 = 3;
    let mut time = [0; 2];
    // SAFETY: a timespec is two numbers of 64 bits.
    assert_eq!(unsafe { clock_gettime(THREAD_CPUTIME, &mut time) }, 0);
    time[0] as f64 + time[1] as f64 / 1e9
}

/// The shortest time of each call, in seconds. They take turns, so that what else the machine does meets all of them.
fn times_of<const N: usize>(mut calls: [&mut dyn FnMut(); N]) -> [f64; N] {
    let mut run = |k: usize, count: u32| {
        let start = now();
        (0..count).for_each(|_| calls[k]());
        now() - start
    };
    let counts: [u32; N] = std::array::from_fn(|k| {
        let mut count = 1;
        while run(k, count) < 0.002 {
            count *= 2;
        }
        count
    });
    let mut best = [f64::INFINITY; N];
    let end = now() + 0.4 * N as f64;
    while now() < end {
        for k in 0..N {
            best[k] = best[k].min(run(k, counts[k]) / f64::from(counts[k]));
        }
    }
    best
}

/// The buffers of all calls.
struct Rooms {
    work: Vec<u8>,
    out: Vec<u8>,
}

impl Rooms {
    fn xml_of(&mut self, input: &[u8]) -> Answer<'_> {
        to_xml_into(input, &mut self.work, &mut self.out, Edition::Rfc5545)
    }

    fn xml_folded_of(&mut self, input: &[u8]) -> Answer<'_> {
        to_xml_folded_into(input, &mut self.out, Edition::Rfc5545)
    }

    fn jcal_of(&mut self, input: &[u8]) -> Answer<'_> {
        to_jcal_into(input, &mut self.work, &mut self.out, Edition::Rfc5545)
    }

    fn text_of(&mut self, input: &[u8]) -> Answer<'_> {
        to_text_into(input, &mut self.out, Edition::Rfc5545)
    }

    fn text_of_jcal(&mut self, input: &[u8]) -> Answer<'_> {
        jcal_to_text_into(input, &mut self.out, Edition::Rfc5545)
    }
}

/// What is measured is accepted, or refused if its name says so.
fn as_named(name: &str, answer: Answer<'_>) {
    let refused = matches!(answer, Answer::Refused(_));
    assert!(!matches!(answer, Answer::Needs(_)) && refused == name.starts_with("refused"), "{name}: {answer:?}");
}

/// A conversion.
type Call = for<'a> fn(&'a mut Rooms, &[u8]) -> Answer<'a>;

/// How long the result is.
fn length_of(answer: Answer<'_>) -> usize {
    match answer {
        Answer::Written(result) => result.len(),
        other => panic!("{other:?}"),
    }
}

/// The result of as long a text of the kind as gives at most `length` bytes.
fn document_of(kind: &Kind, of: Call, length: usize, rooms: &mut Rooms) -> Vec<u8> {
    let (mut fits, mut too_long) = (length / 32, length);
    while too_long - fits > 64 {
        let middle = (fits + too_long) / 2;
        if length_of(of(rooms, &kind.of_length(middle))) <= length {
            fits = middle;
        } else {
            too_long = middle;
        }
    }
    let written = length_of(of(rooms, &kind.of_length(fits)));
    rooms.out[..written].to_vec()
}

/// libical on a text: it parses and prints it. None where it was not found, or finds errors in the text.
#[cfg(libical)]
fn libical_on(text: &[u8]) -> Option<impl FnMut()> {
    use std::ffi::{c_char, c_int, CString};
    extern "C" {
        fn parse_and_print(text: *const c_char) -> usize;
        fn is_parsed(text: *const c_char) -> c_int;
    }
    let text = CString::new(text).expect("no text has a NUL");
    // SAFETY: the text is ended by NUL, and libical does not change it.
    let good = unsafe { is_parsed(text.as_ptr()) } != 0;
    good.then_some(move || {
        // SAFETY: as above.
        black_box(unsafe { parse_and_print(black_box(&text).as_ptr()) });
    })
}

#[cfg(not(libical))]
fn libical_on(_: &[u8]) -> Option<fn()> {
    None
}

fn head(way: &str) {
    println!("\n{way:<30}{:>8}{:>12}{:>10}{:>8}{:>12}", "bytes", "us", "MB/s", "growth", "x libical");
}

/// Measures a conversion on a short and a long input, libical on the long one's `text`, and prints a line of the table.
fn measure(name: &str, inputs: [Vec<u8>; 2], text: Option<Vec<u8>>, convert: impl Fn(&[u8], &mut Rooms), rooms: &mut Rooms) {
    let [short, long] = inputs;
    let rooms = RefCell::new(rooms);
    let on = |input: &[u8]| convert(black_box(input), &mut rooms.borrow_mut());
    let (mut on_short, mut on_long) = (|| on(&short), || on(&long));
    let (times, ratio) = match text.and_then(|text| libical_on(&text)) {
        Some(mut libical) => {
            let [short, long, libical] = times_of([&mut on_short, &mut on_long, &mut libical]);
            ([short, long], format!("{:.2}", libical / long))
        }
        None => (times_of([&mut on_short, &mut on_long]), String::from("-")),
    };
    let length = long.len() as f64;
    let growth = (times[1] / times[0]) * 8.0 * (short.len() as f64 / length);
    println!("{name:<30}{:>8}{:>12.0}{:>10.1}{growth:>8.1}{ratio:>12}", long.len(), times[1] * 1e6, length / times[1] / 1e6);
}

/// Measures a conversion from text.
fn measure_text(kind: &Kind, of: Call, rooms: &mut Rooms) {
    let inputs = [SHORT, LONG].map(|length| kind.of_length(length));
    inputs.iter().for_each(|text| as_named(kind.name, of(rooms, text)));
    let text = (!kind.name.starts_with("refused")).then(|| inputs[1].clone());
    let convert = |text: &[u8], rooms: &mut Rooms| {
        black_box(of(rooms, text));
    };
    measure(kind.name, inputs, text, convert, rooms);
}

fn measure_document(name: &str, of: Call, inputs: [Vec<u8>; 2], text: Option<Vec<u8>>, rooms: &mut Rooms) {
    inputs.iter().for_each(|document| as_named(name, of(rooms, document)));
    let convert = |document: &[u8], rooms: &mut Rooms| {
        black_box(of(rooms, document));
    };
    measure(name, inputs, text, convert, rooms);
}

/// A call on each of the chosen inputs of a length, for a profiler.
fn once(way: &str, only: &str, length: usize, rooms: &mut Rooms) {
    let chosen = |kind: &&Kind| kind.name.contains(only);
    let texts: Option<Call> = match way {
        "to-xml" => Some(Rooms::xml_of),
        "to-xml-folded" => Some(Rooms::xml_folded_of),
        "to-jcal" => Some(Rooms::jcal_of),
        _ => None,
    };
    if let Some(of) = texts {
        for kind in inputs::ROTAS.iter().chain(&inputs::WORST_TEXTS).filter(chosen) {
            as_named(kind.name, of(rooms, &kind.of_length(length)));
        }
        return;
    }
    let (to, of): (Call, Call) = if way == "to-text" { (Rooms::xml_of, Rooms::text_of) } else { (Rooms::jcal_of, Rooms::text_of_jcal) };
    for kind in inputs::ROTAS.iter().filter(chosen) {
        let document = document_of(kind, to, length, rooms);
        as_named(kind.name, of(rooms, &document));
    }
    for kind in inputs::WORST_DOCUMENTS.iter().filter(|kind| way == "to-text" && chosen(kind)) {
        as_named(kind.name, of(rooms, &kind.of_length(length)));
    }
}

fn main() {
    let arguments: Vec<String> = std::env::args().skip(1).collect();
    let mut rooms = Rooms { work: vec![0; LONGEST], out: vec![0; 32 * LONGEST] };
    if let [flag, way, only, length] = &arguments[..] {
        assert_eq!(flag, "--once");
        return once(way, only, length.parse().expect("a length in bytes"), &mut rooms);
    }
    let only = arguments.first().map_or("", String::as_str);
    let chosen = |kind: &&Kind| kind.name.contains(only);
    match option_env!("LIBICAL_VERSION") {
        Some(version) => println!("libical {version} parses and prints the same text (-: it finds errors in it, or is not asked)"),
        None => println!("libical was not found by pkg-config when this was built, so it is not measured"),
    }
    head("text to XML");
    for kind in inputs::ROTAS.iter().chain(&inputs::WORST_TEXTS).filter(chosen) {
        measure_text(kind, Rooms::xml_of, &mut rooms);
    }
    head("text to XML, folds in place");
    for kind in inputs::ROTAS.iter().chain(&inputs::WORST_TEXTS).filter(chosen) {
        measure_text(kind, Rooms::xml_folded_of, &mut rooms);
    }
    head("text to jCal");
    for kind in inputs::ROTAS.iter().chain(&inputs::WORST_TEXTS).filter(chosen) {
        measure_text(kind, Rooms::jcal_of, &mut rooms);
    }
    head("XML to text");
    for kind in inputs::ROTAS.iter().filter(chosen) {
        let documents = [SHORT, LONG].map(|length| document_of(kind, Rooms::xml_of, length, &mut rooms));
        let text = to_text(&documents[1], Edition::Rfc5545).ok();
        measure_document(kind.name, Rooms::text_of, documents, text, &mut rooms);
    }
    for kind in inputs::WORST_DOCUMENTS.iter().filter(chosen) {
        measure_document(kind.name, Rooms::text_of, [SHORT, LONG].map(|length| kind.of_length(length)), None, &mut rooms);
    }
    head("jCal to text");
    for kind in inputs::ROTAS.iter().chain(&inputs::WORST_TEXTS).filter(|kind| chosen(kind) && !kind.name.starts_with("refused")) {
        let documents = [SHORT, LONG].map(|length| document_of(kind, Rooms::jcal_of, length, &mut rooms));
        let text = jcal_to_text(&documents[1], Edition::Rfc5545).ok();
        measure_document(kind.name, Rooms::text_of_jcal, documents, text, &mut rooms);
    }
}
