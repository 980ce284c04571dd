//! The chart: small streams worked by hand, the quick chart against the slow one on made streams in pieces,
//! and wrong charts, each told apart by made streams.

use crate::chart::{of_bytes, Chart, Totals};
use crate::chart_slow::{self as slow, read, refused, Ended, Rules, RIGHT};
use crate::make;
use crate::random::Random;
use crate::sheet::Sheet;
use crate::streams::{add, any_rings, any_stream, pieces, LONGEST, RUN};

/// The print of these totals; all others are 0.
fn print(totals: &[(&str, u64)]) -> String {
    let names = ["sheets", "ran", "refused"].map(String::from).into_iter();
    let names = names.chain([2, 12, 13, 14, 15, 16].map(|number| format!("refused {number}")));
    let names = names.chain(["ringed".to_string()]).chain((2..=16).map(|length| format!("rings {length}")));
    let names: Vec<String> = names.collect();
    assert!(totals.iter().all(|(name, _)| names.iter().any(|known| known == name)));
    let total = |name: &str| totals.iter().find(|total| total.0 == name).map_or(0, |total| total.1);
    names.iter().map(|name| format!("{name} {}\n", total(name))).collect()
}

/// The stream of whole sheets.
fn stream(sheets: &[&[u8]]) -> Vec<u8> {
    let mut stream = Vec::new();
    sheets.iter().for_each(|sheet| add(&mut stream, sheet));
    stream
}

/// Both charts print these totals, the quick one also byte by byte.
fn prints(stream: &[u8], totals: &[(&str, u64)]) {
    let expected = print(totals);
    assert_eq!(of_bytes(stream).print(), expected);
    assert_eq!(slow::print(stream, &RIGHT), expected);
    assert_eq!(in_pieces(&stream.chunks(1).collect::<Vec<_>>()), expected);
}

fn in_pieces(pieces: &[&[u8]]) -> String {
    let mut chart = Chart::new();
    pieces.iter().for_each(|piece| chart.feed(piece));
    chart.end().print()
}

/// One sheet, refused with this number.
fn is_refused(stream: &[u8], number: u8) {
    prints(stream, &[("sheets", 1), ("refused", 1), (&format!("refused {number}"), 1)]);
}

/// The opening of 14 bytes, or one of 4, and zeros to this length: requests of p0 for o0.
fn zeros_after(opening: &[u8], length: usize) -> Vec<u8> {
    let mut sheet = opening.to_vec();
    sheet.resize(length, 0);
    sheet
}

const LONG_OPENING: [u8; 14] = [0x1F, 0xFE, 0, 0, 0, 0, 0, 0, 0, 0, 0, 0, 0, 0];

#[test]
fn a_print_written_out() {
    let mut bytes = stream(&[&RUN, &[], &RUN[..4], &RUN[..5], &[0x22, 0x22], &[0x12, 0x23, 0x04, 0x10]]);
    bytes.extend([0, 4, 0x12, 0x22, 0xE4, 0x10]);
    bytes.extend(stream(&[&[0; 8207], &RUN]));
    bytes.extend([0, 34, 0x12]);
    let expected = "sheets 10\nran 3\nrefused 7\nrefused 2 1\nrefused 12 2\nrefused 13 1\nrefused 14 1\n\
        refused 15 1\nrefused 16 1\nringed 2\nrings 2 4\nrings 3 0\nrings 4 0\nrings 5 0\nrings 6 0\n\
        rings 7 0\nrings 8 0\nrings 9 0\nrings 10 0\nrings 11 0\nrings 12 0\nrings 13 0\nrings 14 0\n\
        rings 15 0\nrings 16 0\n";
    assert_eq!(expected.lines().count(), 25);
    assert_eq!(of_bytes(&bytes).print(), expected);
    assert_eq!(slow::print(&bytes, &RIGHT), expected);
}

#[test]
fn streams_without_a_whole_sheet() {
    prints(&[], &[]);
    is_refused(&[0], 12);
    is_refused(&[0xFF], 12);
    is_refused(&[0, 0], 12);
    is_refused(&[0, 1], 12);
    is_refused(&[0, 34], 12);
    is_refused(&[0xFF, 0xFF], 12);
    is_refused(&[0xFF, 0xFF, 0x12, 0x22], 12);
}

#[test]
fn a_sheet_cut_off_anywhere_counts_12() {
    for length in [1, 2, 4, 34, 8205, 8206, 8207, LONGEST] {
        let mut whole = stream(&[&RUN]);
        add(&mut whole, &zeros_after(&RUN[..length.min(34)], length));
        let from = stream(&[&RUN]).len();
        for came in [1, 2, 2 + length / 2, 2 + length.min(8206), 1 + length] {
            let came = came.min(1 + length);
            let totals =
                [("sheets", 2), ("ran", 1), ("refused", 1), ("refused 12", 1), ("ringed", 1), ("rings 2", 2)];
            prints(&whole[..from + came], &totals);
        }
    }
}

#[test]
fn both_sides_of_the_buffer() {
    prints(&stream(&[&zeros_after(&LONG_OPENING, 8206)]), &[("sheets", 1), ("ran", 1)]);
    is_refused(&stream(&[&zeros_after(&LONG_OPENING, 8205)]), 15);
    is_refused(&stream(&[&zeros_after(&LONG_OPENING, 8207)]), 16);
    is_refused(&stream(&[&[0; 8206]]), 13);
    is_refused(&stream(&[&[0; 8207]]), 16);
    is_refused(&stream(&[&[0xFF; LONGEST]]), 16);
    let short = &RUN[..4];
    prints(&stream(&[&zeros_after(short, 4 + 2 * 4096)]), &[("sheets", 1), ("ran", 1)]);
    is_refused(&stream(&[&zeros_after(short, 4 + 2 * 4096 + 1)]), 15);
    is_refused(&stream(&[&zeros_after(short, 4 + 2 * 4097)]), 16);
    is_refused(&stream(&[&zeros_after(short, 4 + 2 * 4097 + 1)]), 15);
}

#[test]
fn a_ring_of_every_length() {
    let mut random = Random::new(1);
    for length in 2..=16 {
        for _ in 0..20 {
            let sheet = make::rings(&mut random, &[length]);
            let totals = of_bytes(&stream(&[&sheet]));
            let rings = totals.rings[length];
            assert!((1..=length as u64).contains(&rings));
            let name = format!("rings {length}");
            prints(&stream(&[&sheet]), &[("sheets", 1), ("ran", 1), ("ringed", 1), (&name, rings)]);
        }
    }
    let totals = of_bytes(&stream(&[&make::rings(&mut random, &[2, 3, 4, 7])]));
    assert_eq!(totals.ringed, 1);
    assert!([2, 3, 4, 7].iter().all(|&length| totals.rings[length] > 0));
}

/// Runs with room for the slow chart's recursion.
fn with_room(work: impl FnOnce() + Send + 'static) {
    let thread = std::thread::Builder::new().stack_size(1 << 28).spawn(work);
    thread.expect("a thread with room").join().expect("the work is done");
}

#[test]
fn the_quick_chart_against_the_slow_one() {
    with_room(|| {
        let mut random = Random::new(2);
        let mut all = Totals::default();
        for _ in 0..1200 {
            let stream = any_stream(&mut random);
            let expected = slow::print(&stream, &RIGHT);
            let totals = of_bytes(&stream);
            assert_eq!(totals.print(), expected);
            for _ in 0..3 {
                assert_eq!(in_pieces(&pieces(&mut random, &stream)), expected);
            }
            all.add(&totals);
        }
        assert!([2, 12, 13, 14, 15, 16].iter().all(|&number: &usize| all.refused[number] > 50), "{all:?}");
        assert!((2..=16).all(|length| all.rings[length] > 100), "{all:?}");
    });
}

#[test]
fn pieces_are_not_empty_and_make_up_the_stream() {
    let mut random = Random::new(3);
    for _ in 0..200 {
        let stream = any_stream(&mut random);
        let pieces = pieces(&mut random, &stream);
        assert!(pieces.iter().all(|piece| !piece.is_empty()));
        assert!(pieces.concat() == stream);
    }
}

/// The sheet run without its last command.
fn before_the_last(bytes: &[u8]) -> Ended {
    match Sheet::read(bytes) {
        Err(refusal) => refused(refusal),
        Ok(sheet) => slow::run(&sheet, sheet.each_command().take(sheet.command_count().saturating_sub(1))),
    }
}

/// A sheet refused for its end still shows the rings of what stands before.
fn with_rings_of_refused(bytes: &[u8]) -> Ended {
    let cut = |count: usize| read(&bytes[..bytes.len().saturating_sub(count)]).rings;
    match read(bytes) {
        Ended { refusal: Some(15), .. } => Ended { refusal: Some(15), rings: cut(1) },
        Ended { refusal: Some(14), .. } => Ended { refusal: Some(14), rings: cut(2) },
        ended => ended,
    }
}

/// 16 before 15.
fn limit_before_odd_byte(bytes: &[u8]) -> Ended {
    match read(bytes) {
        Ended { refusal: Some(15), .. } if read(&bytes[..bytes.len() - 1]).refusal == Some(16) => refused(16),
        ended => ended,
    }
}

/// The ring turned so that its lowest process is first.
fn turned(ring: &[usize]) -> Vec<usize> {
    let lowest = (0..ring.len()).min_by_key(|&place| ring[place]).unwrap_or(0);
    ring[lowest..].iter().chain(&ring[..lowest]).copied().collect()
}

fn different_circles(rings: &[Vec<usize>]) -> Vec<Vec<usize>> {
    let mut circles: Vec<Vec<usize>> = rings.iter().map(|ring| turned(ring)).collect();
    circles.sort();
    circles.dedup();
    circles
}

fn one_of_each_length(rings: &[Vec<usize>]) -> Vec<Vec<usize>> {
    let mut rings = rings.to_vec();
    rings.sort_by_key(Vec::len);
    rings.dedup_by_key(|ring| ring.len());
    rings
}

fn ran() -> Ended {
    Ended { refusal: None, rings: Vec::new() }
}

/// Wrong about lengths and what is too long.
const WRONG_LENGTHS: [(&str, Rules); 10] = [
    ("low byte first", Rules { length: |high, low| 256 * usize::from(low) + usize::from(high), ..RIGHT }),
    ("a length of 15 bits", Rules { length: |high, low| (RIGHT.length)(high & 127, low), ..RIGHT }),
    ("the length counts itself", Rules { length: |h, l| (RIGHT.length)(h, l).saturating_sub(2), ..RIGHT }),
    ("8,207 bytes are read", Rules { buffer: 8207, ..RIGHT }),
    ("8,205 bytes are read", Rules { buffer: 8205, ..RIGHT }),
    ("every length is read", Rules { buffer: LONGEST, ..RIGHT }),
    ("a sheet too long counts 12", Rules { too_long: |_| refused(12), ..RIGHT }),
    ("a sheet too long is read as far as the buffer goes", Rules { too_long: |s| read(&s[..8206]), ..RIGHT }),
    ("8,206 bytes of a sheet too long are passed over", Rules { passed_over: |_| 8206, ..RIGHT }),
    ("all that follows a sheet too long is passed over", Rules { passed_over: |_| usize::MAX, ..RIGHT }),
];

/// Wrong about the end of the stream.
const WRONG_ENDS: [(&str, Rules); 9] = [
    ("one byte of a length is not counted", Rules { cut_length: || None, ..RIGHT }),
    ("one byte of a length counts as run", Rules { cut_length: || Some(ran()), ..RIGHT }),
    ("a cut sheet is not counted", Rules { cut_sheet: |_, _| None, ..RIGHT }),
    ("a cut sheet counts as run", Rules { cut_sheet: |_, _| Some(ran()), ..RIGHT }),
    ("a cut sheet is read as it came", Rules { cut_sheet: |_, came| Some(read(came)), ..RIGHT }),
    (
        "a cut sheet that is too long counts 16",
        Rules { cut_sheet: |length, _| Some(refused(if length > 8206 { 16 } else { 12 })), ..RIGHT },
    ),
    (
        "a cut sheet counts 16 once the buffer is full",
        Rules { cut_sheet: |_, came| Some(refused(if came.len() > 8206 { 16 } else { 12 })), ..RIGHT },
    ),
    (
        "a length with nothing behind it is not counted",
        Rules { cut_sheet: |_, came| (!came.is_empty()).then(|| refused(12)), ..RIGHT },
    ),
    ("counting goes on after the cut", Rules { after_cut: |rules, came| slow::split(came, rules), ..RIGHT }),
];

/// Wrong about a whole sheet, its rings or the totals.
const WRONG_SHEETS: [(&str, Rules); 14] = [
    ("length 0 is no sheet", Rules { whole: |s| (!s.is_empty()).then(|| read(s)), ..RIGHT }),
    ("length 0 runs", Rules { whole: |s| Some(if s.is_empty() { ran() } else { read(s) }), ..RIGHT }),
    ("refused sheets are not counted", Rules { whole: |s| Some(read(s)).filter(is_run), ..RIGHT }),
    ("16 before 15", Rules { whole: |s| Some(limit_before_odd_byte(s)), ..RIGHT }),
    ("the board before the last command", Rules { whole: |s| Some(before_the_last(s)), ..RIGHT }),
    ("rings of refused sheets", Rules { whole: |s| Some(with_rings_of_refused(s)), ..RIGHT }),
    ("different circles only", Rules { counted: different_circles, ..RIGHT }),
    ("one ring of each length", Rules { counted: one_of_each_length, ..RIGHT }),
    ("one ring of a sheet", Rules { counted: |rings| rings.iter().take(1).cloned().collect(), ..RIGHT }),
    ("the ring of starter 15 left out", Rules { counted: without_starter_15, ..RIGHT }),
    ("rings in place of sheets with rings", Rules { ringed: |rings| rings as u64, ..RIGHT }),
    ("sheets with two rings", Rules { ringed: |rings| u64::from(rings > 1), ..RIGHT }),
    ("totals of 8 bits", Rules { kept: |total| total & 0xFF, ..RIGHT }),
    ("totals of 16 bits", Rules { kept: |total| total & 0xFFFF, ..RIGHT }),
];

fn is_run(ended: &Ended) -> bool {
    ended.refusal.is_none()
}

fn without_starter_15(rings: &[Vec<usize>]) -> Vec<Vec<usize>> {
    rings.iter().filter(|ring| ring[0] != 15).cloned().collect()
}

/// The sheets refused with FROM under the number TO.
fn renumbered<const FROM: u8, const TO: u8>(bytes: &[u8]) -> Option<Ended> {
    let ended = read(bytes);
    Some(if ended.refusal == Some(FROM) { refused(TO) } else { ended })
}

/// Each refusal of the reader under another number.
const RENUMBERED: [(&str, Rules); 7] = [
    ("2 as 14", Rules { whole: renumbered::<2, 14>, ..RIGHT }),
    ("12 as 13", Rules { whole: renumbered::<12, 13>, ..RIGHT }),
    ("13 as 12", Rules { whole: renumbered::<13, 12>, ..RIGHT }),
    ("14 as 13", Rules { whole: renumbered::<14, 13>, ..RIGHT }),
    ("15 as 12", Rules { whole: renumbered::<15, 12>, ..RIGHT }),
    ("16 as 15", Rules { whole: renumbered::<16, 15>, ..RIGHT }),
    ("16 as 14", Rules { whole: renumbered::<16, 14>, ..RIGHT }),
];

#[test]
fn every_wrong_chart_is_told_apart() {
    with_room(|| {
        let mut random = Random::new(4);
        let streams: Vec<Vec<u8>> = (0..400).map(|_| any_stream(&mut random)).collect();
        let right: Vec<String> = streams.iter().map(|stream| of_bytes(stream).print()).collect();
        let wrong = WRONG_LENGTHS.iter().chain(&WRONG_ENDS).chain(&WRONG_SHEETS).chain(&RENUMBERED);
        for (name, rules) in wrong {
            let first =
                streams.iter().zip(&right).position(|(stream, right)| slow::print(stream, rules) != *right);
            println!("{name}: stream {first:?}");
            assert!(first.is_some(), "{name} is not told apart");
        }
    });
}

/// What is printed for a stream that comes in these pieces.
type OfPieces = fn(&[&[u8]]) -> String;

/// Charts that are wrong only where the stream comes in pieces.
const WRONG_IN_PIECES: [(&str, OfPieces); 3] = [
    ("each piece a stream of its own", |pieces| {
        let mut all = Totals::default();
        pieces.iter().for_each(|piece| all.add(&of_bytes(piece)));
        all.print()
    }),
    ("only the first piece is read", |pieces| of_bytes(pieces.first().unwrap_or(&&[][..])).print()),
    ("a piece of one byte ends the stream", |pieces| {
        let end = pieces.iter().position(|piece| piece.len() == 1).unwrap_or(pieces.len());
        of_bytes(&pieces[..end].concat()).print()
    }),
];

#[test]
fn every_chart_wrong_in_pieces_is_told_apart() {
    for (name, wrong) in WRONG_IN_PIECES {
        let mut random = Random::new(5);
        let differs = |random: &mut Random| {
            let stream = any_stream(random);
            wrong(&pieces(random, &stream)) != of_bytes(&stream).print()
        };
        assert!((0..100).any(|_| differs(&mut random)), "{name} is not told apart");
    }
}

#[test]
fn made_rings_fit_sixteen_processes() {
    let mut random = Random::new(6);
    for _ in 0..300 {
        let sheet = any_rings(&mut random);
        let totals = of_bytes(&stream(&[&sheet]));
        assert_eq!((totals.ran, totals.ringed), (1, 1));
    }
}
