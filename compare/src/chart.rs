//! One chart over a stream of sheets, each preceded by its length in 16 bits: fed in pieces of any size,
//! in constant memory. A sheet that lies whole in a piece is read where it lies; only one that is split
//! is put together in the buffer.

use crate::board::{answer::*, Board};
use crate::sheet::Sheet;
use std::fmt::Write;
use std::io::{self, Read};

/// The buffer for one sheet: header and homes at their longest, and 4,096 commands.
pub const BUFFER: usize = 8206;

/// The numbers a sheet may be refused with: its counts are always within their limits, and it needs no
/// answer room.
pub const REFUSALS: [u8; 6] = [BAD_HOME, CUT_SHORT, BAD_FORM, SPARE_BIT, ODD_BYTE, TOO_MANY];

const SHORTEST_RING: usize = 2;
const LONGEST_RING: usize = 16;

/// How much of a stream is read at a time.
const PIECE: usize = 1 << 16;

#[derive(Clone, PartialEq, Eq, Debug, Default)]
pub struct Totals {
    pub ran: u64,
    /// Refused sheets by number.
    pub refused: [u64; TOO_MANY as usize + 1],
    /// Sheets that ended with at least one recorded ring.
    pub ringed: u64,
    /// Recorded rings of the final boards by length.
    pub rings: [u64; LONGEST_RING + 1],
}

impl Totals {
    pub fn all_refused(&self) -> u64 {
        self.refused.iter().sum()
    }

    pub fn sheets(&self) -> u64 {
        self.ran + self.all_refused()
    }

    /// What program `chart` prints.
    pub fn print(&self) -> String {
        let mut text = String::new();
        line(&mut text, "sheets", self.sheets());
        line(&mut text, "ran", self.ran);
        line(&mut text, "refused", self.all_refused());
        for number in REFUSALS {
            line(&mut text, format_args!("refused {number}"), self.refused[usize::from(number)]);
        }
        line(&mut text, "ringed", self.ringed);
        for length in SHORTEST_RING..=LONGEST_RING {
            line(&mut text, format_args!("rings {length}"), self.rings[length]);
        }
        text
    }

    /// Adds the totals of another stream.
    pub fn add(&mut self, other: &Totals) {
        let sum = |totals: &mut [u64], others: &[u64]| {
            totals.iter_mut().zip(others).for_each(|(total, other)| *total += other);
        };
        self.ran += other.ran;
        self.ringed += other.ringed;
        sum(&mut self.refused, &other.refused);
        sum(&mut self.rings, &other.rings);
    }

    fn count(&mut self, bytes: &[u8]) {
        match final_board(bytes) {
            Err(refusal) => self.count_refused(refusal),
            Ok(board) => self.count_ran(&board),
        }
    }

    fn count_refused(&mut self, refusal: u8) {
        self.refused[usize::from(refusal)] += 1;
    }

    fn count_ran(&mut self, board: &Board) {
        self.ran += 1;
        let mut ringed = false;
        for length in counted_rings(board) {
            self.rings[length] += 1;
            ringed = true;
        }
        self.ringed += u64::from(ringed);
    }
}

fn line(text: &mut String, name: impl std::fmt::Display, number: u64) {
    writeln!(text, "{name} {number}").expect("a String takes every line");
}

/// The rings of a final board that the chart counts, by their lengths: all that are recorded.
fn counted_rings(board: &Board) -> impl Iterator<Item = usize> + '_ {
    board.rings.iter().filter(|ring| ring.filled()).map(|ring| usize::from(ring.length))
}

/// The board that a sheet ends with, or its refusal.
fn final_board(bytes: &[u8]) -> Result<Board, u8> {
    let sheet = Sheet::read(bytes)?;
    let mut board = sheet.opening()?;
    for command in sheet.each_command() {
        command.run(&mut board);
    }
    Ok(board)
}

/// Where in the stream the next byte stands.
#[derive(Clone, Copy)]
enum Place {
    BetweenSheets,
    /// After the first byte of a length.
    InLength(u8),
    /// Inside a sheet of this length; the buffer holds so many bytes of it.
    InSheet {
        length: usize,
        filled: usize,
    },
    /// Inside a sheet that is too long, with so many bytes of it to come.
    InTooLong(usize),
}

pub struct Chart {
    totals: Totals,
    place: Place,
    buffer: [u8; BUFFER],
}

impl Chart {
    pub fn new() -> Chart {
        Chart { totals: Totals::default(), place: Place::BetweenSheets, buffer: [0; BUFFER] }
    }

    /// Takes the next piece of the stream.
    pub fn feed(&mut self, piece: &[u8]) {
        let mut rest = piece;
        while let Some((&byte, after)) = rest.split_first() {
            rest = match self.place {
                Place::BetweenSheets => {
                    self.place = Place::InLength(byte);
                    after
                }
                Place::InLength(high) => {
                    self.begin(usize::from(u16::from_be_bytes([high, byte])));
                    after
                }
                Place::InSheet { length, filled } => self.go_on(rest, length, filled),
                Place::InTooLong(left) => self.pass_over(rest, left),
            };
        }
    }

    /// The stream has ended. Inside a length or a sheet, of any length, that sheet counts with 12.
    pub fn end(mut self) -> Totals {
        if !matches!(self.place, Place::BetweenSheets) {
            self.totals.count_refused(CUT_SHORT);
        }
        self.totals
    }

    /// A length has been read. One of 0 is a whole sheet already.
    fn begin(&mut self, length: usize) {
        self.place = match length {
            0 => {
                self.totals.count(&[]);
                Place::BetweenSheets
            }
            1..=BUFFER => Place::InSheet { length, filled: 0 },
            _ => Place::InTooLong(length),
        };
    }

    /// Goes on with a sheet of which so much is in the buffer. Gives what it leaves of the bytes.
    fn go_on<'a>(&mut self, bytes: &'a [u8], length: usize, filled: usize) -> &'a [u8] {
        let (part, after) = bytes.split_at(bytes.len().min(length - filled));
        if part.len() == length {
            self.totals.count(part);
            self.place = Place::BetweenSheets;
            return after;
        }
        let now_filled = filled + part.len();
        self.buffer[filled..now_filled].copy_from_slice(part);
        self.place = Place::InSheet { length, filled: now_filled };
        if now_filled == length {
            self.totals.count(&self.buffer[..length]);
            self.place = Place::BetweenSheets;
        }
        after
    }

    /// Passes over a sheet that is too long. Gives what it leaves of the bytes.
    fn pass_over<'a>(&mut self, bytes: &'a [u8], left: usize) -> &'a [u8] {
        let passed = bytes.len().min(left);
        self.place = Place::InTooLong(left - passed);
        if passed == left {
            self.totals.count_refused(TOO_MANY);
            self.place = Place::BetweenSheets;
        }
        &bytes[passed..]
    }
}

/// The chart of a stream that is read to its end.
pub fn of_reader(mut input: impl Read) -> io::Result<Totals> {
    let mut chart = Chart::new();
    let mut piece = vec![0; PIECE];
    loop {
        match input.read(&mut piece) {
            Ok(0) => return Ok(chart.end()),
            Ok(count) => chart.feed(&piece[..count]),
            Err(error) if error.kind() == io::ErrorKind::Interrupted => {}
            Err(error) => return Err(error),
        }
    }
}

/// The chart of a stream in memory.
pub fn of_bytes(stream: &[u8]) -> Totals {
    let mut chart = Chart::new();
    chart.feed(stream);
    chart.end()
}
