//! Makes sessions for `hand`: an opening, commands chosen on a live board, and the questions `waits`
//! and `rings` after every few of them.

use crate::board::{answer::DONE, Board, Mode, MOST_NODES, MOST_OBJECTS, MOST_PROCESSES};
use crate::make::{any_delivery, any_order, choose, Order, Style};
use crate::random::Random;
use crate::sheet::Command;
use std::fmt::{self, Display, Formatter};

/// What is said to `hand` after the opening, one to a line.
#[derive(Clone, Copy, PartialEq, Eq, Debug)]
pub enum Said {
    Step(Command),
    /// With a budget, or until no message is left.
    Drain(Option<u64>),
    Waits,
    Rings,
}

impl Said {
    /// The number that the plain board answers. A question changes nothing.
    pub fn run(self, board: &mut Board) -> u8 {
        match self {
            Said::Step(command) => command.call(board),
            Said::Drain(budget) => board.drain(budget.unwrap_or(u64::MAX)).0,
            Said::Waits | Said::Rings => DONE,
        }
    }
}

impl Display for Said {
    fn fmt(&self, text: &mut Formatter) -> fmt::Result {
        match *self {
            Said::Step(Command::Request { process, object, mode }) => {
                let mode = if mode == Mode::Shared as u8 { "shared" } else { "exclusive" };
                write!(text, "request {process} {object} {mode}")
            }
            Said::Step(Command::Release { process, object }) => write!(text, "release {process} {object}"),
            Said::Step(Command::Deliver { number }) => write!(text, "deliver {number}"),
            Said::Drain(Some(budget)) => write!(text, "drain {budget}"),
            Said::Drain(None) => write!(text, "drain"),
            Said::Waits => write!(text, "waits"),
            Said::Rings => write!(text, "rings"),
        }
    }
}

pub struct Session {
    pub opening: Board,
    pub said: Vec<Said>,
}

impl Session {
    /// The lines of its text, the opening first.
    pub fn lines(&self) -> Vec<String> {
        let Board { node_count, process_count, object_count, .. } = self.opening;
        let open = format!("open {node_count} {process_count} {object_count}");
        std::iter::once(open).chain(self.said.iter().map(Said::to_string)).collect()
    }
}

/// A session of any kind. It ends with no message in flight and the questions.
pub fn session(random: &mut Random) -> Session {
    let mut draft = match random.below(4) {
        0 | 1 => circles(random),
        2 => crowd(random),
        _ => any(random),
    };
    draft.add(Said::Drain(None));
    draft.ask();
    Session { opening: draft.opening, said: draft.said }
}

/// Process k and object k live on node k modulo the nodes.
pub fn opening(nodes: u8, processes: u8, objects: u8) -> Board {
    let homes = std::array::from_fn(|number| number as u8 % nodes);
    Board::open(nodes, processes, objects, &homes, &homes).expect("the counts are within their limits")
}

/// A session in the making, and a live board that has heard it.
struct Draft<'a> {
    random: &'a mut Random,
    opening: Board,
    live: Board,
    said: Vec<Said>,
    /// About so many commands come before the next questions.
    few: usize,
}

impl Draft<'_> {
    fn new(random: &mut Random, processes: u8, objects: u8) -> Draft<'_> {
        let nodes = random.between(1, MOST_NODES.into()) as u8;
        let few = random.between(2, 6);
        let opening = opening(nodes, processes, objects);
        Draft { random, live: opening.clone(), opening, said: Vec::new(), few }
    }

    fn add(&mut self, said: Said) {
        said.run(&mut self.live);
        self.said.push(said);
        if self.random.below(self.few) == 0 {
            self.ask();
        }
    }

    fn ask(&mut self) {
        self.said.extend([Said::Waits, Said::Rings]);
    }

    fn request(&mut self, process: u8, object: u8, exclusive: u8) {
        let mode = u8::from(self.random.percent(exclusive));
        self.add(Said::Step(Command::Request { process, object, mode }));
    }

    /// One message, or now and then a drain with a small budget, which may be zero.
    fn deliver_some(&mut self, order: Order) {
        if self.live.in_flight == 0 || self.random.percent(15) {
            let budget = self.random.below(8) as u64;
            self.add(Said::Drain(Some(budget)));
        } else {
            let delivery = any_delivery(&self.live, self.random, order);
            self.add(Said::Step(delivery));
        }
    }

    /// So many commands in this style with drains among them, or fewer if nothing of it is left to do.
    fn add_in_style(&mut self, style: &Style, count: usize) {
        for _ in 0..count {
            if self.random.percent(6) {
                self.deliver_some(style.order);
            }
            match choose(&self.live, self.random, style) {
                Some(command) => self.add(Said::Step(command)),
                None => return,
            }
        }
    }

    /// Every process takes the object of its number, shared or exclusive.
    fn each_takes_one(&mut self, exclusive: u8) {
        for process in 0..self.live.process_count {
            self.request(process, process, exclusive);
        }
        self.add(Said::Drain(None));
    }

    /// Some take a share of what others share, so that one who asks for it waits for several.
    fn some_share(&mut self) {
        let processes = usize::from(self.live.process_count);
        for _ in 0..self.random.between(1, 2 * processes) {
            let process = self.random.below(processes) as u8;
            let object = self.random.below(processes) as u8;
            if self.live.objects[object as usize].holders.exclusive == 0 {
                self.request(process, object, 0);
                self.add(Said::Drain(None));
            }
        }
    }

    /// Each asks for the object of the next one in its circle; a few ask for any object.
    fn ask_round(&mut self, next: &[u8], order: Order) {
        let astray = [0, 0, 10, 30][self.random.below(4)];
        let exclusive = [80, 100][self.random.below(2)];
        let hurry = self.random.between(1, 5);
        for process in shuffled(self.random, next.len()) {
            let object = match self.random.percent(astray) {
                true => self.random.below(self.live.object_count.into()) as u8,
                false => next[process as usize],
            };
            self.request(process, object, exclusive);
            for _ in 0..self.random.below(hurry) {
                self.deliver_some(order);
            }
        }
    }
}

/// The numbers below a count in any order.
fn shuffled(random: &mut Random, count: usize) -> Vec<u8> {
    let mut numbers: Vec<u8> = (0..count as u8).collect();
    for place in (1..count).rev() {
        numbers.swap(place, random.below(place + 1));
    }
    numbers
}

/// The processes divided into circles of any lengths, or all in one: who comes after each.
fn any_circles(random: &mut Random, count: usize) -> Vec<u8> {
    let order = shuffled(random, count);
    let most = random.between(2, count);
    let one = random.percent(30);
    let mut next = vec![0; count];
    let mut left = &order[..];
    while !left.is_empty() {
        let length = if one { count } else { random.between(2, most).min(left.len()) };
        let (circle, rest) = left.split_at(length);
        for (place, &process) in circle.iter().enumerate() {
            next[process as usize] = circle[(place + 1) % circle.len()];
        }
        left = rest;
    }
    next
}

/// Rings of many lengths, several on a board: all take an object, then ask round in circles. Some of
/// the messages are still on their way when the questions come.
fn circles(random: &mut Random) -> Draft<'_> {
    let processes = random.between(2, MOST_PROCESSES.into());
    let objects = random.between(processes, MOST_OBJECTS.into()) as u8;
    let next = any_circles(random, processes);
    let order = any_order(random);
    let exclusive = [0, 30, 60, 100][random.below(4)];
    let mut draft = Draft::new(random, processes as u8, objects);
    draft.each_takes_one(exclusive);
    if draft.random.percent(50) {
        draft.some_share();
    }
    draft.ask_round(&next, order);
    let mut left = draft.random.below(150);
    while left > 0 && draft.live.in_flight != 0 {
        draft.deliver_some(order);
        left -= 1;
    }
    let after = Style::any(draft.random);
    let count = draft.random.below(30);
    draft.add_in_style(&after, count);
    draft
}

/// Many ask for few objects, and hardly one is given back.
fn crowd(random: &mut Random) -> Draft<'_> {
    let processes = random.between(2, MOST_PROCESSES.into()) as u8;
    let objects = random.between(1, 8) as u8;
    let style = Style {
        request: 12,
        release: random.below(2) as u32,
        deliver: random.between(6, 14) as u32,
        blind: random.below(2) as u32,
        exclusive: [30, 60, 90, 100][random.below(4)],
        heed_load: true,
        order: any_order(random),
    };
    let count = random.between(20, 150);
    let mut draft = Draft::new(random, processes, objects);
    draft.add_in_style(&style, count);
    draft
}

/// Any counts and several styles one after the other.
fn any(random: &mut Random) -> Draft<'_> {
    let processes = random.between(2, MOST_PROCESSES.into()) as u8;
    let objects = random.between(1, MOST_OBJECTS.into()) as u8;
    let mut draft = Draft::new(random, processes, objects);
    for _ in 0..draft.random.between(1, 4) {
        let style = Style::any(draft.random);
        let count = draft.random.between(10, 60);
        draft.add_in_style(&style, count);
    }
    draft
}
