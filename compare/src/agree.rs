//! Both sides on many made sheets in one process: the sheet's answer and every byte of the answer room.

use crate::random::Random;
use crate::sheet::{self, MOST_COMMANDS};
use crate::sides::{self, Side};

/// What no command answers, so that a byte that was written can be told from one that was not.
const UNTOUCHED: u8 = 0xEE;

/// What one side makes of a sheet: its answer, and the room after it.
#[derive(PartialEq, Eq)]
pub struct Made {
    pub answer: u8,
    pub room: Vec<u8>,
}

impl Made {
    fn by(side: Side, bytes: &[u8], room: usize) -> Made {
        let mut made = Made { answer: 0, room: vec![UNTOUCHED; room] };
        made.answer = side(bytes, &mut made.room);
        made
    }

    /// The answer as the first byte, then the room.
    pub fn bytes(&self) -> Vec<u8> {
        [&[self.answer], &self.room[..]].concat()
    }
}

/// Mostly room for any sheet; else about as much as this one needs, a little less or a little more.
fn any_room(random: &mut Random, commands: usize) -> usize {
    match random.percent(80) {
        true => MOST_COMMANDS + random.below(4),
        false => (commands + random.below(4)).saturating_sub(2),
    }
}

/// The two sides on one sheet.
pub struct Both {
    pub ours: Made,
    pub plain: Made,
    pub commands: usize,
}

pub fn both(ours: Side, bytes: &[u8], random: &mut Random) -> Both {
    let commands = sheet::commands_part(bytes).len() / 2;
    let room = any_room(random, commands);
    Both { ours: Made::by(ours, bytes, room), plain: Made::by(sides::plain, bytes, room), commands }
}
