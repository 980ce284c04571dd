//! The packed sheet: its reader, its run into a lent answer room, and what `board` prints.

use crate::board::{answer::*, Board, Mode};
use std::fmt::Write;

pub const MOST_COMMANDS: usize = 4096;
const HEADER_BYTES: usize = 2;

#[derive(Clone, Copy, PartialEq, Eq, Debug)]
pub enum Command {
    Request { process: u8, object: u8, mode: u8 },
    Release { process: u8, object: u8 },
    Deliver { number: u8 },
}

impl Command {
    /// Kinds 0 to 2 go on with process 4, object 4, six spare; kind 3 with message number 6,
    /// eight spare.
    pub fn of_word(word: u16) -> Command {
        let process = (word >> 10) as u8 & 15;
        let object = (word >> 6) as u8 & 15;
        match word >> 14 {
            0 => Command::Request { process, object, mode: 0 },
            1 => Command::Request { process, object, mode: 1 },
            2 => Command::Release { process, object },
            _ => Command::Deliver { number: (word >> 8) as u8 & 63 },
        }
    }

    pub fn word(self) -> u16 {
        let named = |kind: u8, process: u8, object: u8| {
            u16::from(kind) << 14 | u16::from(process) << 10 | u16::from(object) << 6
        };
        match self {
            Command::Request { process, object, mode } => named(mode, process, object),
            Command::Release { process, object } => named(2, process, object),
            Command::Deliver { number } => 3 << 14 | u16::from(number) << 8,
        }
    }

    /// The spare bits that are set in a command.
    fn spare(word: u16) -> u16 {
        word & if word >= 3 << 14 { 0x00FF } else { 0x003F }
    }

    /// The command on a board known to be in shape.
    pub fn run(self, board: &mut Board) -> u8 {
        match self {
            Command::Request { process, object, mode } => board.request_in_shape(process, object, mode),
            Command::Release { process, object } => board.release_in_shape(process, object),
            Command::Deliver { number } => board.deliver_in_shape(number),
        }
    }

    /// The command on any board: 17 comes first.
    pub fn call(self, board: &mut Board) -> u8 {
        match self {
            Command::Request { process, object, mode } => board.request(process, object, mode),
            Command::Release { process, object } => board.release(process, object),
            Command::Deliver { number } => board.deliver(number),
        }
    }
}

/// One reading place that moves on through the bits, most significant first.
struct Reader<'a> {
    bytes: &'a [u8],
    place: usize,
}

impl Reader<'_> {
    /// The caller has made sure that the bits are there.
    fn bits(&mut self, count: usize) -> u8 {
        let mut value = 0;
        for _ in 0..count {
            let byte = self.bytes[self.place / 8];
            value = value << 1 | byte >> (7 - self.place % 8) & 1;
            self.place += 1;
        }
        value
    }
}

/// A good sheet, read.
#[derive(Clone, Debug)]
pub struct Sheet<'a> {
    pub nodes: u8,
    pub processes: u8,
    pub objects: u8,
    pub process_homes: [u8; 16],
    pub object_homes: [u8; 16],
    /// The part of the sheet that holds the commands.
    pub commands: &'a [u8],
}

impl<'a> Sheet<'a> {
    /// Order: 12 (header), 13, 14 (header), 12 (homes), 2, 14 (homes), 15, 16, 14 (commands).
    pub fn read(bytes: &'a [u8]) -> Result<Sheet<'a>, u8> {
        if bytes.len() < HEADER_BYTES {
            return Err(CUT_SHORT);
        }
        let mut reader = Reader { bytes, place: 0 };
        if reader.bits(4) != 1 {
            return Err(BAD_FORM);
        }
        let mut sheet = Sheet {
            nodes: reader.bits(3) + 1,
            processes: reader.bits(4) + 1,
            objects: reader.bits(4) + 1,
            process_homes: [0; 16],
            object_homes: [0; 16],
            commands: &[],
        };
        if reader.bits(1) != 0 {
            return Err(SPARE_BIT);
        }
        let commands_from = sheet.read_homes(&mut reader)?;
        sheet.commands = &bytes[commands_from..];
        sheet.check_commands()?;
        Ok(sheet)
    }

    /// Reads the homes and gives the place of the first byte after them.
    fn read_homes(&mut self, reader: &mut Reader) -> Result<usize, u8> {
        let home_bits = 3 * usize::from(self.processes + self.objects);
        let commands_from = HEADER_BYTES + home_bits.div_ceil(8);
        if reader.bytes.len() < commands_from {
            return Err(CUT_SHORT);
        }
        let mut in_range = true;
        let process_homes = self.process_homes[..self.processes as usize].iter_mut();
        let object_homes = self.object_homes[..self.objects as usize].iter_mut();
        for home in process_homes.chain(object_homes) {
            *home = reader.bits(3);
            in_range &= *home < self.nodes;
        }
        if !in_range {
            return Err(BAD_HOME);
        }
        if reader.bits(8 * commands_from - reader.place) != 0 {
            return Err(SPARE_BIT);
        }
        Ok(commands_from)
    }

    fn check_commands(&self) -> Result<(), u8> {
        if !self.commands.len().is_multiple_of(2) {
            return Err(ODD_BYTE);
        }
        if self.command_count() > MOST_COMMANDS {
            return Err(TOO_MANY);
        }
        match self.words().fold(0, |set, word| set | Command::spare(word)) {
            0 => Ok(()),
            _ => Err(SPARE_BIT),
        }
    }

    pub fn command_count(&self) -> usize {
        self.commands.len() / 2
    }

    fn words(&self) -> impl Iterator<Item = u16> + 'a {
        let commands = self.commands;
        commands.chunks_exact(2).map(|pair| u16::from_be_bytes([pair[0], pair[1]]))
    }

    pub fn each_command(&self) -> impl Iterator<Item = Command> + 'a {
        self.words().map(Command::of_word)
    }

    pub fn opening(&self) -> Result<Board, u8> {
        let (processes, objects) = (&self.process_homes, &self.object_homes);
        Board::open(self.nodes, self.processes, self.objects, processes, objects)
    }

    /// Runs all commands; each writes its answer as one byte. Bytes of the answer room beyond
    /// them stay. Refused with 18 if the room is too short.
    pub fn run(&self, room: &mut [u8]) -> Result<Board, u8> {
        if room.len() < self.command_count() {
            return Err(SHORT_ROOM);
        }
        let mut board = self.opening()?;
        for (answer, command) in room.iter_mut().zip(self.each_command()) {
            *answer = command.run(&mut board);
        }
        Ok(board)
    }
}

/// The part of the sheet that holds the commands; empty for a refused sheet.
pub fn commands_part(bytes: &[u8]) -> &[u8] {
    Sheet::read(bytes).map_or(&[], |sheet| sheet.commands)
}

/// Reads and runs a sheet into the answer room; a refused sheet runs nothing and leaves the room.
pub fn run(bytes: &[u8], room: &mut [u8]) -> Result<Board, u8> {
    Sheet::read(bytes)?.run(room)
}

/// What program `board` prints for a sheet.
pub fn print(bytes: &[u8]) -> String {
    let mut room = [0; MOST_COMMANDS];
    match run(bytes, &mut room) {
        Err(refusal) => format!("sheet {refusal}\n"),
        Ok(board) => {
            let answers = &room[..commands_part(bytes).len() / 2];
            print_answers(answers) + &print_board(&board)
        }
    }
}

/// Command number from 1 and answer.
fn print_answers(answers: &[u8]) -> String {
    let mut text = String::new();
    for (number, answer) in (1..).zip(answers) {
        line(&mut text, format_args!("{number} {answer}"));
    }
    text
}

/// Object lines, ring lines by starter, then messages in flight and tally.
fn print_board(board: &Board) -> String {
    let mut text = String::new();
    for object in 0..board.object_count {
        let holders = side(board.holders(object));
        let standing = side(board.line(object));
        line(&mut text, format_args!("o{object}{holders} /{standing}"));
    }
    for ring in board.rings.iter().filter(|ring| ring.filled()) {
        let processes: String = ring.iter().map(|process| format!(" {process}")).collect();
        line(&mut text, format_args!("ring{processes}"));
    }
    let (messages, rings) = (board.in_flight.count_ones(), board.tally());
    line(&mut text, format_args!("messages {messages} rings {rings}"));
    text
}

fn line(text: &mut String, content: std::fmt::Arguments) {
    writeln!(text, "{content}").expect("a String takes every line");
}

/// One side of an object line: each entry after one space, its mode as S or X.
fn side(entries: impl Iterator<Item = (u8, Mode)>) -> String {
    let letter = |mode| if mode == Mode::Shared { 'S' } else { 'X' };
    entries.map(|(process, mode)| format!(" {process}{}", letter(mode))).collect()
}
