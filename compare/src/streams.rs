//! Makes streams of sheets, each preceded by its length: good and damaged sheets of all kinds, lengths on
//! both sides of the limits, rings of every length, endings inside a length or a sheet, and no sheets at all.

use crate::chart::BUFFER;
use crate::make::{self, Kind};
use crate::random::Random;

/// The longest that 16 bits can say.
pub const LONGEST: usize = 65_535;

/// Lengths at and about the limits.
const EDGES: [usize; 9] = [0, 1, 2, BUFFER - 1, BUFFER, BUFFER + 1, BUFFER + 2, LONGEST - 1, LONGEST];

/// The opening and commands of document 01's run: two rings of length 2.
pub const RUN: [u8; 34] = [
    0x12, 0x22, 0x04, 0x10, 0x40, 0x00, 0xC0, 0x00, 0xC0, 0x00, 0x44, 0x40, 0xC0, 0x00, 0xC0, 0x00, 0x40,
    0x40, 0x44, 0x00, 0xC0, 0x00, 0xC1, 0x00, 0xC0, 0x00, 0xC0, 0x00, 0xC1, 0x00, 0xC0, 0x00, 0xC0, 0x00,
];

/// Adds a sheet, preceded by its length.
pub fn add(stream: &mut Vec<u8>, sheet: &[u8]) {
    let length = u16::try_from(sheet.len()).expect("no sheet is made longer than a length can say");
    stream.extend(length.to_be_bytes());
    stream.extend(sheet);
}

pub fn any_stream(random: &mut Random) -> Vec<u8> {
    match random.below(40) {
        0 => Vec::new(),
        1 => vec![random.next() as u8],
        2 => any_bytes(random, 400),
        3 => vec![0; random.below(400)],
        4 => small_random_sheets(random),
        5 => one_repeated(random),
        6 => one_length_and_cut(random),
        _ => sheets_and_an_end(random),
    }
}

fn any_bytes(random: &mut Random, most: usize) -> Vec<u8> {
    (0..random.below(most + 1)).map(|_| random.next() as u8).collect()
}

/// Random bytes under small lengths, which are true but perhaps for the last.
fn small_random_sheets(random: &mut Random) -> Vec<u8> {
    let mut stream = Vec::new();
    for _ in 0..random.below(60) {
        let mut sheet = any_bytes(random, 12);
        if let (true, Some(first)) = (random.percent(70), sheet.first_mut()) {
            *first = 0x10 | *first & 15;
        }
        add(&mut stream, &sheet);
    }
    let lost = if random.percent(50) { random.below(4) } else { 0 };
    stream.truncate(stream.len().saturating_sub(lost));
    stream
}

/// One short sheet again and again, now and then more often than 16 bits count.
fn one_repeated(random: &mut Random) -> Vec<u8> {
    let sheet: &[u8] = match random.below(6) {
        0 | 1 => &[],
        2 => &RUN[..4],
        3 => &RUN[..5],
        _ => &RUN,
    };
    let times = match random.below(6) {
        0 | 1 => random.between(65_536, 70_000),
        2 => random.between(10_001, 20_000),
        3 => random.between(1000, 10_000),
        _ => random.between(200, 600),
    };
    let mut stream = Vec::new();
    for _ in 0..times {
        add(&mut stream, sheet);
    }
    end(random, &mut stream);
    stream
}

/// A length about the limits as the only one, and what follows cut off somewhere.
fn one_length_and_cut(random: &mut Random) -> Vec<u8> {
    let mut stream = Vec::new();
    add(&mut stream, &edge(random));
    stream.truncate(random.below(stream.len() + 1));
    stream
}

fn sheets_and_an_end(random: &mut Random) -> Vec<u8> {
    let mut stream = Vec::new();
    let most = [1, 3, 8, 20][random.below(4)];
    for _ in 0..random.between(1, most) {
        add(&mut stream, &any_sheet(random));
    }
    end(random, &mut stream);
    stream
}

pub fn any_sheet(random: &mut Random) -> Vec<u8> {
    match random.below(12) {
        0..=3 => {
            let kind = make::any_kind(random);
            make::sheet(random, kind)
        }
        4 => make::sheet(random, Kind::Contended),
        5 => make::sheet(random, Kind::Damaged),
        6 | 7 => any_rings(random),
        8 => refused_with_rings(random),
        9 => edge(random),
        10 => about_the_limit_of_commands(random),
        _ => RUN[..random.below(RUN.len() + 1)].to_vec(),
    }
}

/// One ring, or several that together have 16 processes at most.
pub fn any_rings(random: &mut Random) -> Vec<u8> {
    let mut lengths = vec![random.between(2, 16)];
    let mut left = 16 - lengths[0];
    while left >= 2 && random.percent(80) {
        let length = random.between(2, left);
        lengths.push(length);
        left -= length;
    }
    make::rings(random, &lengths)
}

/// Commands that make rings, and something for which the sheet is refused: an odd byte, a spare bit, or
/// commands up to the buffer's end, which are too many but for the longest opening.
fn refused_with_rings(random: &mut Random) -> Vec<u8> {
    let mut sheet = any_rings(random);
    match random.below(4) {
        0 => sheet.push(0),
        1 => sheet.extend([0x40, 0x01]),
        2 => sheet[1] |= 1,
        _ => sheet.resize(BUFFER, 0),
    }
    sheet
}

/// A sheet of a length at or about the limits.
fn edge(random: &mut Random) -> Vec<u8> {
    let length = EDGES[random.below(EDGES.len())];
    match random.below(5) {
        0 => vec![0; length],
        1 => (0..length).map(|_| random.next() as u8).collect(),
        2 => {
            let opening = make::opening_of(random, 8, 16, 16);
            make::of_length(random, &opening, length)
        }
        _ => {
            let opening = make::any_opening(random);
            make::of_length(random, &opening, length)
        }
    }
}

/// An opening of any length with 4,095 to 4,098 commands, now and then an odd byte or a spare bit.
fn about_the_limit_of_commands(random: &mut Random) -> Vec<u8> {
    let opening = match random.percent(40) {
        true => make::opening_of(random, 8, 16, 16),
        false => make::any_opening(random),
    };
    let opening_bytes = make::pack(&opening, &[]).len();
    let odd = usize::from(random.percent(30));
    let length = opening_bytes + 2 * random.between(4095, 4098) + odd;
    let mut sheet = make::of_length(random, &opening, length);
    if random.percent(20) {
        let last = sheet.len() - 1;
        sheet[last] |= 1;
    }
    sheet
}

/// Leaves the stream whole, or adds one more sheet that is cut off.
fn end(random: &mut Random, stream: &mut Vec<u8>) {
    if random.percent(40) {
        return;
    }
    let sheet = match random.below(3) {
        0 => edge(random),
        1 => sheets_in_a_sheet(random),
        _ => any_sheet(random),
    };
    let from = stream.len();
    add(stream, &sheet);
    let came = match random.below(5) {
        0 => 1,
        1 => 2,
        2 => 1 + sheet.len(),
        3 => 2 + random.below(sheet.len() + 1),
        _ => 2 + random.below(sheet.len().min(BUFFER + 1) + 1),
    };
    stream.truncate(from + came);
}

/// What looks like whole sheets, or a good sheet and more, under one length.
fn sheets_in_a_sheet(random: &mut Random) -> Vec<u8> {
    let mut sheet = Vec::new();
    if random.percent(50) {
        sheet.extend(RUN);
    }
    for _ in 0..random.between(1, 300) {
        add(&mut sheet, &RUN[..random.below(RUN.len() + 1)]);
    }
    sheet
}

/// The stream in pieces of odd lengths, none of them empty.
pub fn pieces<'a>(random: &mut Random, stream: &'a [u8]) -> Vec<&'a [u8]> {
    let most = match stream.len() {
        0..3000 => [1, 2, 3, 7, 40][random.below(5)],
        3000..60_000 => [60, 1000, BUFFER, 20_000][random.below(4)],
        _ => [3000, BUFFER + 1, 70_000][random.below(3)],
    };
    let mut pieces = Vec::new();
    let mut rest = stream;
    while !rest.is_empty() {
        let (piece, after) = rest.split_at(random.between(1, most).min(rest.len()));
        pieces.push(piece);
        rest = after;
    }
    pieces
}

/// A sheet of a term: mostly good ones of some kinds, a few damaged.
pub fn term_sheet(random: &mut Random) -> Vec<u8> {
    let kinds = [
        (Kind::Accepted, 40),
        (Kind::Contended, 25),
        (Kind::Lists, 15),
        (Kind::Mixed, 17),
        (Kind::Damaged, 3),
    ];
    let weights = kinds.map(|(_, weight)| weight);
    let place = random.weighted(&weights).expect("some weight is not zero");
    make::sheet(random, kinds[place].0)
}
