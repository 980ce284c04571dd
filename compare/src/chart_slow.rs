//! The chart once more, word by word over the whole stream: it is split into its sheets, and each total is
//! counted over that list, on the slow board. What each word says stands in a table of rules, so that one can
//! be put wrong.

use crate::sheet::{Command, Sheet};
use crate::slow::Slow;
use std::collections::VecDeque;

/// How one sheet of a stream ended.
#[derive(Clone, PartialEq, Debug)]
pub struct Ended {
    pub refusal: Option<u8>,
    /// The rings recorded on the final board, starter first.
    pub rings: Vec<Vec<usize>>,
}

pub fn refused(number: u8) -> Ended {
    Ended { refusal: Some(number), rings: Vec::new() }
}

/// A sheet that is read by itself.
pub fn read(bytes: &[u8]) -> Ended {
    match Sheet::read(bytes) {
        Err(refusal) => refused(refusal),
        Ok(sheet) => run(&sheet, sheet.each_command()),
    }
}

pub fn run(sheet: &Sheet, commands: impl Iterator<Item = Command>) -> Ended {
    let mut board = Slow::of_board(&sheet.opening().expect("a sheet that is read has an opening"));
    for command in commands {
        board.step(command);
    }
    Ended { refusal: None, rings: board.recorded() }
}

/// The sheets of a stream, in order.
type List = VecDeque<Ended>;

#[derive(Clone, Copy)]
pub struct Rules {
    /// The length that two bytes say.
    pub length: fn(u8, u8) -> usize,
    /// The longest sheet that is read.
    pub buffer: usize,
    /// A whole sheet within the buffer.
    pub whole: fn(&[u8]) -> Option<Ended>,
    /// A whole sheet that is longer.
    pub too_long: fn(&[u8]) -> Ended,
    /// How many bytes of it are passed over, of its length.
    pub passed_over: fn(usize) -> usize,
    /// A stream that ends inside a length.
    pub cut_length: fn() -> Option<Ended>,
    /// A stream that ends inside a sheet: of its length, and what came of it.
    pub cut_sheet: fn(usize, &[u8]) -> Option<Ended>,
    /// What follows a sheet that is cut off, given what came of it.
    pub after_cut: fn(&Rules, &[u8]) -> List,
    /// Which of a sheet's recorded rings count.
    pub counted: fn(&[Vec<usize>]) -> Vec<Vec<usize>>,
    /// How many a sheet adds to those with a ring, by its rings that count.
    pub ringed: fn(usize) -> u64,
    /// A total as it is kept.
    pub kept: fn(u64) -> u64,
}

/// What Req 01 says.
pub const RIGHT: Rules = Rules {
    length: |high, low| 256 * usize::from(high) + usize::from(low),
    buffer: 8206,
    whole: |bytes| Some(read(bytes)),
    too_long: |_| refused(16),
    passed_over: |length| length,
    cut_length: || Some(refused(12)),
    cut_sheet: |_, _| Some(refused(12)),
    after_cut: |_, _| List::new(),
    counted: |rings| rings.to_vec(),
    ringed: |rings| u64::from(rings > 0),
    kept: |total| total,
};

/// Splits a stream into its sheets: the first, then those of the rest.
pub fn split(stream: &[u8], rules: &Rules) -> List {
    match *stream {
        [] => List::new(),
        [_] => (rules.cut_length)().into_iter().collect(),
        [high, low, ref rest @ ..] => split_after_length((rules.length)(high, low), rest, rules),
    }
}

fn split_after_length(length: usize, rest: &[u8], rules: &Rules) -> List {
    let (first, mut others) = if rest.len() < length {
        ((rules.cut_sheet)(length, rest), (rules.after_cut)(rules, rest))
    } else if length > rules.buffer {
        let after = &rest[(rules.passed_over)(length).min(rest.len())..];
        (Some((rules.too_long)(&rest[..length])), split(after, rules))
    } else {
        ((rules.whole)(&rest[..length]), split(&rest[length..], rules))
    };
    if let Some(first) = first {
        others.push_front(first);
    }
    others
}

/// What is printed for a stream.
pub fn print(stream: &[u8], rules: &Rules) -> String {
    let sheets = split(stream, rules);
    let number_of =
        |which: &dyn Fn(&Ended) -> bool| sheets.iter().filter(|sheet| which(sheet)).count() as u64;
    let rings: Vec<Vec<Vec<usize>>> = sheets.iter().map(|sheet| (rules.counted)(&sheet.rings)).collect();
    let of_length = |length| rings.iter().flatten().filter(|ring| ring.len() == length).count() as u64;
    let mut lines = vec![
        ("sheets".to_string(), number_of(&|_| true)),
        ("ran".to_string(), number_of(&|sheet| sheet.refusal.is_none())),
        ("refused".to_string(), number_of(&|sheet| sheet.refusal.is_some())),
    ];
    for number in [2, 12, 13, 14, 15, 16] {
        lines.push((format!("refused {number}"), number_of(&|sheet| sheet.refusal == Some(number))));
    }
    lines.push(("ringed".to_string(), rings.iter().map(|of_sheet| (rules.ringed)(of_sheet.len())).sum()));
    lines.extend((2..=16).map(|length| (format!("rings {length}"), of_length(length))));
    lines.into_iter().map(|(name, total)| format!("{name} {}\n", (rules.kept)(total))).collect()
}
