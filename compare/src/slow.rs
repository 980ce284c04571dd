//! The rules once more, word by word and without any cleverness, to hold the quick board against.
//! Its openings and commands come from outside; nothing here uses the quick board's steps.

use crate::board::{Board, Message, Mode};
use crate::sheet::Command;
use std::collections::BTreeMap;

#[derive(Clone, PartialEq, Debug)]
enum Travelling {
    Request {
        process: usize,
        object: usize,
        mode: u8,
    },
    Grant {
        process: usize,
        object: usize,
        mode: u8,
    },
    Release {
        process: usize,
        object: usize,
    },
    /// Entries with their leads; the object if the list is on its way to one.
    List {
        entries: Vec<(usize, usize)>,
        next: usize,
        object: Option<usize>,
    },
}

#[derive(Clone, PartialEq, Debug)]
pub struct Slow {
    holds: Vec<BTreeMap<usize, u8>>,
    waiting: Vec<Option<(usize, u8)>>,
    released: Vec<bool>,
    holders: Vec<BTreeMap<usize, u8>>,
    lines: Vec<Vec<(usize, u8)>>,
    messages: BTreeMap<u8, Travelling>,
    rings: BTreeMap<usize, Vec<usize>>,
}

impl Slow {
    /// What a quick board says, put in these words.
    pub fn of_board(board: &Board) -> Slow {
        let processes = 0..board.process_count;
        let objects = 0..board.object_count;
        let book = |process: u8| &board.processes[process as usize];
        let wide = |(process, mode): (u8, Mode)| (usize::from(process), mode as u8);
        Slow {
            holds: processes
                .clone()
                .map(|process| {
                    let held = |object| Some((object, book(process).holds.mode_of(object)?));
                    objects.clone().filter_map(held).map(wide).collect()
                })
                .collect(),
            waiting: processes
                .clone()
                .map(|process| book(process).wait.map(|wait| wide((wait.object, wait.mode))))
                .collect(),
            released: processes.map(|process| book(process).released).collect(),
            holders: objects.clone().map(|object| board.holders(object).map(wide).collect()).collect(),
            lines: objects.map(|object| board.line(object).map(wide).collect()).collect(),
            messages: (0..64).filter_map(|number| Some((number, travelling(board, number)?))).collect(),
            rings: (0..16)
                .filter(|&starter| board.rings[starter].filled())
                .map(|starter| (starter, board.rings[starter].iter().map(usize::from).collect()))
                .collect(),
        }
    }

    /// The recorded rings by starter.
    pub fn recorded(&self) -> Vec<Vec<usize>> {
        self.rings.values().cloned().collect()
    }

    pub fn step(&mut self, command: Command) -> u8 {
        match command {
            Command::Request { process, object, mode } => self.request(process.into(), object.into(), mode),
            Command::Release { process, object } => self.release(process.into(), object.into()),
            Command::Deliver { number } => self.deliver(number),
        }
    }

    fn load(&self) -> usize {
        let is_request = |message: &&Travelling| matches!(message, Travelling::Request { .. });
        let standing: usize = self.lines.iter().map(Vec::len).sum();
        self.messages.len() + standing + self.messages.values().filter(is_request).count()
    }

    fn request(&mut self, process: usize, object: usize, mode: u8) -> u8 {
        if process >= self.holds.len() {
            3
        } else if object >= self.holders.len() {
            4
        } else if mode > 1 {
            5
        } else if self.waiting[process].is_some() {
            6
        } else if self.released[process] {
            7
        } else if self.holds[process].contains_key(&object) {
            8
        } else if self.load() > 62 {
            10
        } else {
            self.waiting[process] = Some((object, mode));
            self.send(Travelling::Request { process, object, mode });
            0
        }
    }

    fn release(&mut self, process: usize, object: usize) -> u8 {
        if process >= self.holds.len() {
            3
        } else if object >= self.holders.len() {
            4
        } else if self.waiting[process].is_some() {
            6
        } else if !self.holds[process].contains_key(&object) {
            9
        } else if self.load() > 63 {
            10
        } else {
            self.holds[process].remove(&object);
            self.released[process] = true;
            self.send(Travelling::Release { process, object });
            0
        }
    }

    fn send(&mut self, message: Travelling) {
        let number = (0..64).find(|number| !self.messages.contains_key(number));
        self.messages.insert(number.expect("a delivery is never short of room"), message);
    }

    fn deliver(&mut self, number: u8) -> u8 {
        match self.messages.remove(&number) {
            None => return 11,
            Some(Travelling::Request { process, object, mode }) => {
                let free = |(&holder, &held): (&usize, &u8)| holder == process || !conflict(held, mode);
                if self.lines[object].is_empty() && self.holders[object].iter().all(free) {
                    self.holders[object].insert(process, mode);
                    self.send(Travelling::Grant { process, object, mode });
                } else {
                    self.lines[object].push((process, mode));
                    self.start_list(process, object);
                }
            }
            Some(Travelling::Grant { process, object, mode }) => {
                self.waiting[process] = None;
                self.holds[process].insert(object, mode);
            }
            Some(Travelling::Release { process, object }) => {
                self.holders[object].remove(&process);
                self.grant_from_front(object);
            }
            Some(Travelling::List { entries, next, object }) => match object {
                None => self.list_at_home(entries, next),
                Some(object) => self.list_at_object(entries, next, object),
            },
        }
        0
    }

    fn grant_from_front(&mut self, object: usize) {
        while let Some(&(process, mode)) = self.lines[object].first() {
            let free = |(&holder, &held): (&usize, &u8)| holder == process || !conflict(held, mode);
            if !self.holders[object].iter().all(free) {
                return;
            }
            self.lines[object].remove(0);
            self.holders[object].insert(process, mode);
            self.send(Travelling::Grant { process, object, mode });
        }
    }

    /// Those a process in this line waits for, in the order a list takes them.
    fn waits_for(&self, process: usize, object: usize) -> Vec<usize> {
        let line = &self.lines[object];
        let place = line.iter().position(|standing| standing.0 == process).expect("it is in line");
        let mode = line[place].1;
        let holders = self.holders[object].iter().map(|(&holder, &held)| (holder, held));
        let mut found = Vec::new();
        for (other, other_mode) in holders.chain(line[..place].iter().copied()) {
            if other != process && conflict(mode, other_mode) && !found.contains(&other) {
                found.push(other);
            }
        }
        found
    }

    fn start_list(&mut self, starter: usize, object: usize) {
        let others = self.waits_for(starter, object);
        if !others.is_empty() {
            let mut entries = vec![(starter, 0)];
            entries.extend(others.into_iter().map(|other| (other, 0)));
            self.send(Travelling::List { entries, next: 1, object: None });
        }
    }

    fn list_at_home(&mut self, entries: Vec<(usize, usize)>, next: usize) {
        match self.waiting[entries[next].0] {
            Some((object, _)) => self.send(Travelling::List { entries, next, object: Some(object) }),
            None => self.entry_done(entries, next),
        }
    }

    fn list_at_object(&mut self, mut entries: Vec<(usize, usize)>, next: usize, object: usize) {
        let process = entries[next].0;
        if self.lines[object].iter().any(|standing| standing.0 == process) {
            let others = self.waits_for(process, object);
            if others.contains(&entries[0].0) {
                self.rings.entry(entries[0].0).or_insert_with(|| way_to(&entries, next));
                return;
            }
            for other in others {
                if entries.iter().all(|entry| entry.0 != other) {
                    entries.push((other, next));
                }
            }
        }
        self.entry_done(entries, next);
    }

    fn entry_done(&mut self, entries: Vec<(usize, usize)>, next: usize) {
        if next + 1 < entries.len() {
            self.send(Travelling::List { entries, next: next + 1, object: None });
        }
    }
}

fn conflict(one: u8, other: u8) -> bool {
    one == 1 || other == 1
}

/// Starter first, then along the leads to the entry at this place.
fn way_to(entries: &[(usize, usize)], place: usize) -> Vec<usize> {
    if place == 0 {
        return vec![entries[0].0];
    }
    let mut way = way_to(entries, entries[place].1);
    way.push(entries[place].0);
    way
}

fn travelling(board: &Board, number: u8) -> Option<Travelling> {
    let list = |object: Option<u8>| {
        let list = &board.lists[number as usize];
        let entry = |place| (list.entries.at(place).into(), list.leads.at(place).into());
        let entries = (0..list.length).map(entry).collect();
        Travelling::List { entries, next: list.next.into(), object: object.map(usize::from) }
    };
    Some(match board.messages[number as usize] {
        Message::Free => return None,
        Message::Request { process, object, mode } => {
            Travelling::Request { process: process.into(), object: object.into(), mode: mode as u8 }
        }
        Message::Grant { process, object, mode } => {
            Travelling::Grant { process: process.into(), object: object.into(), mode: mode as u8 }
        }
        Message::Release { process, object } => {
            Travelling::Release { process: process.into(), object: object.into() }
        }
        Message::ListToHome => list(None),
        Message::ListToObject { object } => list(Some(object)),
    })
}

#[cfg(test)]
mod tests {
    use super::*;
    use crate::make::{any_opening, choose, Style};
    use crate::random::Random;

    #[test]
    fn quick_and_slow_boards_go_the_same_way() {
        let mut random = Random::new(2024);
        let mut rings = 0;
        for _ in 0..600 {
            let mut quick = any_opening(&mut random);
            let mut slow = Slow::of_board(&quick);
            let mut style = Style::any(&mut random);
            for step in 0..400 {
                let Some(command) = choose(&quick, &mut random, &style) else {
                    break;
                };
                assert_eq!(command.call(&mut quick), slow.step(command), "{command:?}");
                assert_eq!(Slow::of_board(&quick), slow, "{command:?}");
                assert_eq!(quick.load() as usize, slow.load());
                if step % 100 == 99 {
                    style = Style::any(&mut random);
                }
            }
            rings += quick.tally();
        }
        assert!(rings > 100, "the walk meets rings: {rings}");
    }
}
