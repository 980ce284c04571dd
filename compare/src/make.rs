//! Makes sheets: good ones of several kinds, their commands chosen on a live board, and damaged ones.

use crate::board::{below, bit, Board, MOST_LOAD};
use crate::random::Random;
use crate::sheet::{Command, MOST_COMMANDS};

/// Which message a delivery takes.
#[derive(Clone, Copy, Debug)]
pub enum Order {
    Lowest,
    Highest,
    Any,
}

/// How often each command is chosen, and of what sort.
#[derive(Clone, Copy, Debug)]
pub struct Style {
    pub request: u32,
    pub release: u32,
    pub deliver: u32,
    /// Commands of any content, most of them refused.
    pub blind: u32,
    /// Requests that are exclusive, in a hundred.
    pub exclusive: u8,
    /// Whether requests and releases that the load forbids (10) are left out.
    pub heed_load: bool,
    pub order: Order,
}

impl Style {
    /// Any style: the random walk takes a new one for each opening.
    pub fn any(random: &mut Random) -> Style {
        Style {
            request: random.between(1, 8) as u32,
            release: random.below(4) as u32,
            deliver: random.between(1, 12) as u32,
            blind: random.below(3) as u32,
            exclusive: [0, 10, 40, 70, 100][random.below(5)],
            heed_load: random.percent(80),
            order: any_order(random),
        }
    }
}

pub fn any_order(random: &mut Random) -> Order {
    [Order::Lowest, Order::Highest, Order::Any, Order::Any][random.below(4)]
}

/// The processes whose home would take a request, or a release, but for the load.
fn able(board: &Board, release: bool) -> u64 {
    let mut set = 0;
    for process in 0..board.process_count {
        let book = &board.processes[process as usize];
        let fitting = match release {
            true => book.holds.all() != 0,
            false => !book.released && book.holds.all() != below(board.object_count),
        };
        if fitting && book.wait.is_none() {
            set |= u64::from(bit(process));
        }
    }
    set
}

pub fn any_delivery(board: &Board, random: &mut Random, order: Order) -> Command {
    let number = match order {
        Order::Lowest => board.in_flight.trailing_zeros() as u8,
        Order::Highest => 63 - board.in_flight.leading_zeros() as u8,
        Order::Any => random.member(board.in_flight),
    };
    Command::Deliver { number }
}

/// A command of any content, its numbers now and then past the counts.
fn blind_command(board: &Board, random: &mut Random) -> Command {
    let mut number = |count: u8| random.below((usize::from(count) + 1).min(16)) as u8;
    let (process, object) = (number(board.process_count), number(board.object_count));
    match random.below(8) {
        0 | 1 => Command::Request { process, object, mode: 0 },
        2 | 3 => Command::Request { process, object, mode: 1 },
        4 | 5 => Command::Release { process, object },
        6 => Command::Deliver { number: random.below(8) as u8 },
        _ => Command::Deliver { number: random.below(64) as u8 },
    }
}

/// The next command for a live board in this style; none if nothing of the style is left to do.
pub fn choose(board: &Board, random: &mut Random, style: &Style) -> Option<Command> {
    let askers = able(board, false);
    let releasers = able(board, true);
    let may_ask = askers != 0 && (!style.heed_load || board.load() <= MOST_LOAD - 2);
    let may_release = releasers != 0 && (!style.heed_load || board.load() < MOST_LOAD);
    let weights = [
        if may_ask { style.request } else { 0 },
        if may_release { style.release } else { 0 },
        if board.in_flight != 0 { style.deliver } else { 0 },
        style.blind,
    ];
    Some(match random.weighted(&weights)? {
        0 => {
            let process = random.member(askers);
            let held = board.processes[process as usize].holds.all();
            let object = random.member(u64::from(below(board.object_count) & !held));
            Command::Request { process, object, mode: u8::from(random.percent(style.exclusive)) }
        }
        1 => {
            let process = random.member(releasers);
            let held = board.processes[process as usize].holds.all();
            Command::Release { process, object: random.member(u64::from(held)) }
        }
        2 => any_delivery(board, random, style.order),
        _ => blind_command(board, random),
    })
}

/// A count from 1 to its limit, the two ends more often.
fn any_count(random: &mut Random, limit: u8) -> u8 {
    match random.below(4) {
        0 => 1,
        1 => limit,
        _ => random.between(1, limit as usize) as u8,
    }
}

fn any_homes(random: &mut Random, nodes: u8) -> [u8; 16] {
    std::array::from_fn(|_| random.below(nodes as usize) as u8)
}

pub fn opening_of(random: &mut Random, nodes: u8, processes: u8, objects: u8) -> Board {
    let (process_homes, object_homes) = (any_homes(random, nodes), any_homes(random, nodes));
    Board::open(nodes, processes, objects, &process_homes, &object_homes)
        .expect("counts and homes are within their limits")
}

/// An opening of any size, each count at its limits more often.
pub fn any_opening(random: &mut Random) -> Board {
    let (nodes, processes) = (any_count(random, 8), any_count(random, 16));
    let objects = any_count(random, 16);
    opening_of(random, nodes, processes, objects)
}

/// A sheet in the making: its opening, and a live board that its commands have been run on.
struct Draft {
    opening: Board,
    live: Board,
    commands: Vec<Command>,
}

impl Draft {
    fn new(opening: Board) -> Draft {
        Draft { live: opening.clone(), opening, commands: Vec::new() }
    }

    fn full(&self) -> bool {
        self.commands.len() >= MOST_COMMANDS
    }

    fn add(&mut self, command: Command) {
        if !self.full() {
            command.run(&mut self.live);
            self.commands.push(command);
        }
    }

    /// So many commands in this style, or fewer if nothing of the style is left to do.
    fn add_in_style(&mut self, random: &mut Random, style: &Style, count: usize) {
        for _ in 0..count {
            match choose(&self.live, random, style) {
                Some(command) => self.add(command),
                None => return,
            }
        }
    }

    fn deliver_all(&mut self, random: &mut Random, order: Order) {
        while self.live.in_flight != 0 && !self.full() {
            let command = any_delivery(&self.live, random, order);
            self.add(command);
        }
    }

    fn packed(&self) -> Vec<u8> {
        pack(&self.opening, &self.commands)
    }
}

/// Fields are bit-packed, most significant first.
pub fn pack(opening: &Board, commands: &[Command]) -> Vec<u8> {
    let (nodes, processes) = (opening.node_count, opening.process_count);
    let objects = opening.object_count;
    let mut fields = vec![(1, 4), (nodes - 1, 3), (processes - 1, 4), (objects - 1, 4), (0, 1)];
    let process_homes = &opening.process_homes[..processes as usize];
    let object_homes = &opening.object_homes[..objects as usize];
    fields.extend(process_homes.iter().chain(object_homes).map(|&home| (home, 3)));
    let mut bytes = Vec::new();
    let mut place = 0;
    for (value, width) in fields {
        for shift in (0..width).rev() {
            if place % 8 == 0 {
                bytes.push(0);
            }
            bytes[place / 8] |= (value >> shift & 1) << (7 - place % 8);
            place += 1;
        }
    }
    bytes.extend(commands.iter().flat_map(|command| command.word().to_be_bytes()));
    bytes
}

#[derive(Clone, Copy, PartialEq, Eq, Debug)]
pub enum Kind {
    /// Commands chosen so that they are accepted, until none is left.
    Accepted,
    /// Long lines, long lists and rings.
    Contended,
    /// Long lists, most of the commands their deliveries.
    Lists,
    /// Random commands.
    Refused,
    /// Any opening, any style.
    Mixed,
    /// As many messages in flight as the load allows, and more tried.
    Flooded,
    /// A good sheet damaged.
    Damaged,
}

pub const KINDS: [(&str, Kind); 7] = [
    ("accepted", Kind::Accepted),
    ("contended", Kind::Contended),
    ("lists", Kind::Lists),
    ("refused", Kind::Refused),
    ("mixed", Kind::Mixed),
    ("flooded", Kind::Flooded),
    ("damaged", Kind::Damaged),
];

pub fn any_kind(random: &mut Random) -> Kind {
    KINDS[random.below(KINDS.len())].1
}

pub fn sheet(random: &mut Random, kind: Kind) -> Vec<u8> {
    match kind {
        Kind::Accepted => accepted(random).packed(),
        Kind::Contended => contended(random).packed(),
        Kind::Lists => lists(random).packed(),
        Kind::Refused => refused(random).packed(),
        Kind::Mixed => mixed(random).packed(),
        Kind::Flooded => flooded(random).packed(),
        Kind::Damaged => damaged(random),
    }
}

fn accepted(random: &mut Random) -> Draft {
    let (nodes, processes) = (random.between(1, 8) as u8, random.between(8, 16) as u8);
    let objects = random.between(8, 16) as u8;
    let mut draft = Draft::new(opening_of(random, nodes, processes, objects));
    let exclusive = [0, 2, 5, 20, 50][random.below(5)];
    let order = any_order(random);
    let gather = Style { request: 4, release: 0, deliver: 8, blind: 0, exclusive, heed_load: true, order };
    let count = random.below(1000);
    draft.add_in_style(random, &gather, count);
    draft.add_in_style(random, &Style { release: 2, ..gather }, MOST_COMMANDS);
    draft
}

fn contended(random: &mut Random) -> Draft {
    let processes = random.between(8, 16) as u8;
    let nodes = random.between(1, 8) as u8;
    match random.below(3) {
        0 => circle(random, nodes, processes),
        1 => one_line(random, nodes, processes),
        _ => crowd(random, nodes, processes),
    }
}

/// Every process holds one object and asks for the next one's: a ring of all of them.
fn circle(random: &mut Random, nodes: u8, processes: u8) -> Draft {
    let mut draft = Draft::new(opening_of(random, nodes, processes, processes));
    for process in 0..processes {
        draft.add(Command::Request { process, object: process, mode: 1 });
    }
    draft.deliver_all(random, Order::Lowest);
    for process in 0..processes {
        let object = (process + 1) % processes;
        draft.add(Command::Request { process, object, mode: u8::from(random.percent(80)) });
    }
    let order = any_order(random);
    draft.deliver_all(random, order);
    draft
}

/// Every process holds an object of its own or shares one, then all ask for a few; the last
/// holder asks back.
fn one_line(random: &mut Random, nodes: u8, processes: u8) -> Draft {
    let mut draft = Draft::new(opening_of(random, nodes, processes, processes));
    for process in 0..processes {
        let mode = u8::from(random.percent(60));
        draft.add(Command::Request { process, object: process, mode });
    }
    draft.deliver_all(random, Order::Any);
    let wanted = random.between(1, 3);
    for process in 1..processes {
        let object = random.below(wanted.min(process as usize)) as u8;
        draft.add(Command::Request { process, object, mode: u8::from(random.percent(70)) });
        if random.percent(50) {
            let delivery = any_delivery(&draft.live, random, Order::Any);
            draft.add(delivery);
        }
    }
    draft.deliver_all(random, Order::Any);
    let object = random.between(1, processes as usize - 1) as u8;
    draft.add(Command::Request { process: 0, object, mode: 1 });
    draft.deliver_all(random, Order::Any);
    draft
}

/// Many processes, few objects, hardly a release.
fn crowd(random: &mut Random, nodes: u8, processes: u8) -> Draft {
    let objects = random.between(2, 8) as u8;
    let mut draft = Draft::new(opening_of(random, nodes, processes, objects));
    let exclusive = [30, 60, 90][random.below(3)];
    let style = Style {
        request: 12,
        release: random.below(2) as u32,
        deliver: 8,
        blind: 0,
        exclusive,
        heed_load: true,
        order: any_order(random),
    };
    draft.add_in_style(random, &style, MOST_COMMANDS);
    draft
}

/// A few share an object and all others ask for it. A list starts with the holders and those who
/// stand ahead, and asks each of them. At last a holder asks for what one of the others holds.
fn lists(random: &mut Random) -> Draft {
    let (nodes, processes) = (random.between(1, 8) as u8, random.between(12, 16) as u8);
    let mut draft = Draft::new(opening_of(random, nodes, processes, 2));
    let sharing = random.between(1, 8) as u8;
    for process in 0..sharing {
        draft.add(Command::Request { process, object: 0, mode: 0 });
    }
    let other = random.between(sharing.into(), processes as usize - 1) as u8;
    draft.add(Command::Request { process: other, object: 1, mode: 1 });
    draft.deliver_all(random, Order::Lowest);
    for process in sharing..processes {
        draft.add(Command::Request { process, object: 0, mode: u8::from(random.percent(90)) });
    }
    let order = any_order(random);
    draft.deliver_all(random, order);
    draft.add(Command::Request { process: 0, object: 1, mode: 1 });
    draft.deliver_all(random, order);
    draft
}

fn refused(random: &mut Random) -> Draft {
    let mut draft = Draft::new(any_opening(random));
    let count = match random.below(4) {
        0 => MOST_COMMANDS,
        1 => random.below(64),
        _ => random.below(MOST_COMMANDS + 1),
    };
    for _ in 0..count {
        let command = match random.percent(50) {
            true => blind_command(&draft.live, random),
            false => Command::of_word(good_word(random.next() as u16)),
        };
        draft.add(command);
    }
    draft
}

fn mixed(random: &mut Random) -> Draft {
    let mut draft = Draft::new(any_opening(random));
    for _ in 0..random.between(1, 6) {
        let style = Style::any(random);
        let count = random.below(600);
        draft.add_in_style(random, &style, count);
    }
    if random.percent(50) {
        draft.deliver_all(random, Order::Any);
    }
    draft
}

/// Shared holds for all, then requests and releases with hardly a delivery: load 64 and message
/// number 63 are met, and 10 is answered.
fn flooded(random: &mut Random) -> Draft {
    let (processes, objects) = (random.between(12, 16) as u8, random.between(8, 16) as u8);
    let nodes = random.between(1, 8) as u8;
    let mut draft = Draft::new(opening_of(random, nodes, processes, objects));
    let gather = Style {
        request: 4,
        release: 0,
        deliver: 4,
        blind: 0,
        exclusive: random.below(3) as u8,
        heed_load: true,
        order: Order::Any,
    };
    let count = random.between(150, 500);
    draft.add_in_style(random, &gather, count);
    let order = any_order(random);
    draft.deliver_all(random, order);
    let exclusive = random.below(100) as u8;
    let flood = Style { request: 4, release: 4, deliver: 1, exclusive, heed_load: false, ..gather };
    let count = random.between(100, 400);
    draft.add_in_style(random, &flood, count);
    if random.percent(50) {
        draft.deliver_all(random, order);
    }
    draft
}

/// Rings of these lengths, 16 processes at most in all: each process holds an object of its own and asks for
/// that of the next in its ring. All messages are delivered.
pub fn rings(random: &mut Random, lengths: &[usize]) -> Vec<u8> {
    let processes = lengths.iter().sum::<usize>() as u8;
    let nodes = random.between(1, 8) as u8;
    let mut draft = Draft::new(opening_of(random, nodes, processes, processes));
    for process in 0..processes {
        draft.add(Command::Request { process, object: process, mode: 1 });
    }
    draft.deliver_all(random, Order::Lowest);
    let mut left = shuffled(random, processes);
    for &length in lengths {
        let ring = left.split_off(left.len() - length);
        for (place, &process) in ring.iter().enumerate() {
            let object = ring[(place + 1) % length];
            draft.add(Command::Request { process, object, mode: u8::from(random.percent(80)) });
        }
    }
    let order = any_order(random);
    draft.deliver_all(random, order);
    draft.packed()
}

/// The numbers below a count in any order.
fn shuffled(random: &mut Random, count: u8) -> Vec<u8> {
    let mut numbers: Vec<u8> = (0..count).collect();
    for place in (1..numbers.len()).rev() {
        numbers.swap(place, random.below(place + 1));
    }
    numbers
}

/// A sheet of just this length: the opening, then good commands and perhaps an odd byte; less than the
/// opening if it is shorter. Beyond 4,096 commands it goes on all the same.
pub fn of_length(random: &mut Random, opening: &Board, length: usize) -> Vec<u8> {
    let mut bytes = pack(opening, &[]);
    while bytes.len() < length {
        bytes.extend(good_word(random.next() as u16).to_be_bytes());
    }
    bytes.truncate(length);
    bytes
}

/// The command word with its spare bits zero.
fn good_word(word: u16) -> u16 {
    Command::of_word(word).word()
}

/// A good sheet, mostly a short one, damaged once or twice.
fn damaged(random: &mut Random) -> Vec<u8> {
    let mut draft = match random.below(4) {
        0 => mixed(random),
        _ => Draft::new(any_opening(random)),
    };
    let short = random.below(20);
    let style = Style::any(random);
    draft.add_in_style(random, &style, short);
    let homes_to = 16 + 3 * usize::from(draft.opening.process_count + draft.opening.object_count);
    let mut bytes = draft.packed();
    for _ in 0..random.between(1, 2) {
        damage(random, &mut bytes, homes_to);
    }
    bytes
}

/// One damage. `homes_to` is the bit just after the last home.
fn damage(random: &mut Random, bytes: &mut Vec<u8>, homes_to: usize) {
    let commands_from = homes_to.div_ceil(8);
    let bits = 8 * bytes.len().max(1);
    match random.below(14) {
        0 => flip(bytes, random.below(bits)),
        1 => flip(bytes, random.below(homes_to)),
        2 => bytes.truncate(random.below(bytes.len() + 1)),
        3 => bytes.truncate(random.below(commands_from + 2)),
        4 => add_bytes(random, bytes, 40),
        5 => bytes.push(random.next() as u8),
        6 => set_form(bytes, random.below(16) as u8),
        7 => flip(bytes, 15),
        8 => (homes_to..8 * commands_from).for_each(|place| {
            if random.percent(40) {
                flip(bytes, place)
            }
        }),
        9 => flip(bytes, 16 + random.below(homes_to - 16)),
        10 => flip_command_spare(random, bytes, commands_from),
        11 => overfill(random, bytes, commands_from),
        12 => bytes.clear(),
        _ => {
            bytes.clear();
            add_bytes(random, bytes, 60);
            set_form(bytes, 1);
        }
    }
}

fn flip(bytes: &mut [u8], place: usize) {
    if let Some(byte) = bytes.get_mut(place / 8) {
        *byte ^= 0x80 >> (place % 8);
    }
}

fn set_form(bytes: &mut [u8], form: u8) {
    if let Some(byte) = bytes.first_mut() {
        *byte = form << 4 | *byte & 15;
    }
}

fn add_bytes(random: &mut Random, bytes: &mut Vec<u8>, most: usize) {
    for _ in 0..random.below(most + 1) {
        bytes.push(random.next() as u8);
    }
}

fn flip_command_spare(random: &mut Random, bytes: &mut [u8], commands_from: usize) {
    let count = bytes.len().saturating_sub(commands_from) / 2;
    if count != 0 {
        let command = 8 * (commands_from + 2 * random.below(count));
        flip(bytes, command + random.between(10, 15));
    }
}

/// To just about the limit of commands, or far past it; bytes that may be no good commands.
fn overfill(random: &mut Random, bytes: &mut Vec<u8>, commands_from: usize) {
    let count = match random.below(4) {
        0 => MOST_COMMANDS,
        1 | 2 => MOST_COMMANDS + 1,
        _ => random.between(MOST_COMMANDS - 1, 3 * MOST_COMMANDS),
    };
    let good = random.percent(70);
    while bytes.len() + 1 < commands_from + 2 * count {
        let word = random.next() as u16;
        bytes.extend(if good { good_word(word) } else { word }.to_be_bytes());
    }
    if random.percent(20) {
        bytes.push(0);
    }
}
