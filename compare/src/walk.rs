//! The random walk that holds demand 3 against boards reached by commands, refused ones included.
//! Waits and rings are worked out here from the books as document 01 defines them, by search, and
//! never from lists.

use crate::board::{answer::DONE, Board, Mode, Ring};
use crate::make::{self, any_delivery, any_opening, choose, Kind, Order, Style};
use crate::random::Random;
use crate::sheet::{Command, Sheet};

const MOST_DELIVERIES: u64 = 1920;

/// `waits[p][q]`: process p waits for process q.
pub type Waits = [[bool; 16]; 16];

#[derive(Default)]
pub struct Counts {
    pub openings: u64,
    pub boards: u64,
    pub accepted: u64,
    pub refused: u64,
    pub drains: u64,
    pub deliveries_in_drains: u64,
    pub longest_drain: u64,
    pub drained_with_ring: u64,
    pub rings_recorded: u64,
    pub longest_ring: u64,
    pub most_rings: u64,
    pub most_load: u64,
}

/// Walks so many commands; the first thing found wrong ends the walk.
pub fn walk(steps: u64, seed: u64) -> Result<Counts, String> {
    let mut walk = Walk { random: Random::new(seed), left: steps, counts: Counts::default() };
    while walk.left > 0 {
        let before = walk.left;
        let done = if walk.random.percent(60) { walk.live() } else { walk.along_a_sheet() };
        done.map_err(|wrong| {
            format!("{wrong} (seed {seed}, on the board opened {} steps in)", steps - before)
        })?;
    }
    Ok(walk.counts)
}

struct Walk {
    random: Random,
    left: u64,
    counts: Counts,
}

impl Walk {
    /// From one opening, in styles that change now and then, for a while.
    fn live(&mut self) -> Result<(), String> {
        let mut board = any_opening(&mut self.random);
        let mut style = Style::any(&mut self.random);
        let drain_chance = self.random.below(6) as u8;
        for _ in 0..self.random.between(1, 1000) {
            let Some(command) = choose(&board, &mut self.random, &style) else {
                break;
            };
            let answer = self.step(&mut board, command, drain_chance)?;
            if self.left == 0 || answer != DONE && board.in_flight == 0 && self.random.percent(5) {
                break;
            }
            if self.random.percent(2) {
                style = Style::any(&mut self.random);
            }
        }
        self.end(&board)
    }

    /// The commands of a made sheet, which lead to long lists and full boards.
    fn along_a_sheet(&mut self) -> Result<(), String> {
        let kind = [Kind::Accepted, Kind::Contended, Kind::Flooded][self.random.below(3)];
        let bytes = make::sheet(&mut self.random, kind);
        let sheet = Sheet::read(&bytes).map_err(|refusal| format!("made sheet refused: {refusal}"))?;
        let mut board = sheet.opening().map_err(|refusal| format!("opening refused: {refusal}"))?;
        let drain_chance = self.random.below(4) as u8;
        for command in sheet.each_command().take(self.left as usize) {
            self.step(&mut board, command, drain_chance)?;
        }
        self.end(&board)
    }

    fn step(&mut self, board: &mut Board, command: Command, drain_chance: u8) -> Result<u8, String> {
        let before = board.clone();
        let answer = command.call(board);
        if answer == DONE {
            self.counts.accepted += 1;
        } else {
            self.counts.refused += 1;
            expect(*board == before, "a refusal changed the board")?;
        }
        check(board, &before.rings)?;
        self.counts.boards += 1;
        self.counts.most_load = self.counts.most_load.max(u64::from(board.load()));
        self.left -= 1;
        if self.random.percent(drain_chance) {
            drain_aside(board, &mut self.random, &mut self.counts)?;
        }
        Ok(answer)
    }

    /// A last drain, and a count of what was recorded by then.
    fn end(&mut self, board: &Board) -> Result<(), String> {
        let quiet = drain_aside(board, &mut self.random, &mut self.counts)?;
        let counts = &mut self.counts;
        let lengths = quiet.rings.iter().map(|ring| u64::from(ring.length));
        counts.openings += 1;
        counts.rings_recorded += quiet.tally() as u64;
        counts.most_rings = counts.most_rings.max(quiet.tally() as u64);
        counts.longest_ring = lengths.fold(counts.longest_ring, u64::max);
        Ok(())
    }
}

/// What holds on every board reached: shape, load, no conflicting holds in the homes' books, and
/// every recorded ring true and kept.
fn check(board: &Board, recorded_before: &[Ring; 16]) -> Result<(), String> {
    expect(board.in_shape(), "the board is out of shape")?;
    expect(load_afresh(board) == board.load(), "the load is not what document 01 counts")?;
    expect(board.load() <= 64, "the load passes 64")?;
    check_holds(board)?;
    for (before, now) in recorded_before.iter().zip(&board.rings) {
        expect(!before.filled() || before == now, "a recorded ring was not kept")?;
    }
    if board.tally() != 0 {
        let waits = waits(board);
        for (starter, ring) in (0u8..).zip(&board.rings) {
            check_ring(starter, ring, &waits)?;
        }
    }
    Ok(())
}

/// Load counted from the messages and lines themselves.
fn load_afresh(board: &Board) -> u32 {
    use crate::board::Message;
    let message_load = |message: &Message| match message {
        Message::Free => 0,
        Message::Request { .. } => 2,
        _ => 1,
    };
    let in_lines: usize = (0..board.object_count).map(|object| board.line(object).count()).sum();
    board.messages.iter().map(message_load).sum::<u32>() + in_lines as u32
}

/// Two holds by different processes conflict unless both are shared.
pub fn conflict(one: Mode, other: Mode) -> bool {
    !(one == Mode::Shared && other == Mode::Shared)
}

fn hold(board: &Board, process: u8, object: u8) -> Option<Mode> {
    board.processes[process as usize].holds.mode_of(object)
}

/// The homes' books show no two processes in conflicting holds.
fn check_holds(board: &Board) -> Result<(), String> {
    for object in 0..board.object_count {
        let mut seen: Option<Mode> = None;
        for process in 0..board.process_count {
            let Some(mode) = hold(board, process, object) else {
                continue;
            };
            let clash = seen.is_some_and(|earlier| conflict(earlier, mode));
            expect(!clash, "two homes show conflicting holds")?;
            seen = Some(mode);
        }
    }
    Ok(())
}

/// Two or more different processes, each waiting for the next, the last for the first; the
/// starter of the place first.
fn check_ring(starter: u8, ring: &Ring, waits: &Waits) -> Result<(), String> {
    if !ring.filled() {
        return Ok(());
    }
    let processes: Vec<usize> = ring.iter().map(usize::from).collect();
    expect(processes.len() >= 2, "a ring of fewer than two")?;
    expect(processes[0] == usize::from(starter), "a ring that its starter does not begin")?;
    let mut seen = [false; 16];
    for (place, &process) in processes.iter().enumerate() {
        expect(!seen[process], "a ring that names a process twice")?;
        seen[process] = true;
        let next = processes[(place + 1) % processes.len()];
        expect(waits[process][next], "a recorded ring that is no ring of waits")?;
    }
    Ok(())
}

/// A process in a line waits for each other process that holds the object in conflict with it,
/// and for each process ahead of it in that line whose mode conflicts.
pub fn waits(board: &Board) -> Waits {
    let mut waits = [[false; 16]; 16];
    for object in 0..board.object_count {
        let mut ahead: Vec<(u8, Mode)> = Vec::new();
        for (process, mode) in board.line(object) {
            for (other, other_mode) in board.holders(object).chain(ahead.iter().copied()) {
                if other != process && conflict(mode, other_mode) {
                    waits[process as usize][other as usize] = true;
                }
            }
            ahead.push((process, mode));
        }
    }
    waits
}

/// Whether a ring of waits exists among the processes not left out: depth-first search for a way
/// back to a process still open on the way.
fn ring_exists(waits: &Waits, left_out: &[bool; 16]) -> bool {
    fn search(at: usize, waits: &Waits, open: &mut [bool; 16], closed: &mut [bool; 16]) -> bool {
        open[at] = true;
        for next in 0..16 {
            if !waits[at][next] || closed[next] {
                continue;
            }
            if open[next] || search(next, waits, open, closed) {
                return true;
            }
        }
        open[at] = false;
        closed[at] = true;
        false
    }
    let mut closed = *left_out;
    (0..16).any(|start| !closed[start] && search(start, waits, &mut [false; 16], &mut closed))
}

/// Only deliveries follow, in any order: each is answered 0, at most 1,920 are made, and what
/// demand 3 says of the end holds. Done on a copy, so that the walk goes on from where it was.
fn drain_aside(board: &Board, random: &mut Random, counts: &mut Counts) -> Result<Board, String> {
    let mut quiet = board.clone();
    let order = [Order::Any, Order::Any, Order::Highest, Order::Lowest][random.below(4)];
    let mut made = 0;
    while quiet.in_flight != 0 {
        expect(made < MOST_DELIVERIES, "more than 1,920 deliveries")?;
        let before = quiet.rings;
        let answer = any_delivery(&quiet, random, order).call(&mut quiet);
        expect(answer == DONE, "a delivery of a message present was refused")?;
        check(&quiet, &before)?;
        made += 1;
    }
    counts.drains += 1;
    counts.deliveries_in_drains += made;
    counts.longest_drain = counts.longest_drain.max(made);
    check_quiet(&quiet, counts)?;
    if matches!(order, Order::Lowest) {
        check_drain_call(board, &quiet, made, random)?;
    }
    Ok(quiet)
}

/// No message is left: every ring of waits holds a process whose place is filled, and homes and
/// objects agree.
fn check_quiet(quiet: &Board, counts: &mut Counts) -> Result<(), String> {
    let waits = waits(quiet);
    let filled = std::array::from_fn(|process| quiet.rings[process].filled());
    expect(!ring_exists(&waits, &filled), "a ring of waits with no filled place")?;
    counts.drained_with_ring += u64::from(ring_exists(&waits, &[false; 16]));
    for object in 0..quiet.object_count {
        let holders: Vec<_> = quiet.holders(object).collect();
        let at_homes = (0..quiet.process_count)
            .filter_map(|process| hold(quiet, process, object).map(|mode| (process, mode)));
        expect(at_homes.eq(holders), "homes and objects disagree on who holds")?;
        let mut line: Vec<_> = quiet.line(object).collect();
        line.sort_by_key(|&(process, _)| process);
        let at_homes = (0..quiet.process_count).filter_map(|process| {
            let wait = quiet.processes[process as usize].wait?;
            (wait.object == object).then_some((process, wait.mode))
        });
        expect(at_homes.eq(line), "homes and objects disagree on who waits")?;
    }
    Ok(())
}

/// Drain makes exactly the deliveries the rules need, or the budget if that is less.
fn check_drain_call(board: &Board, quiet: &Board, made: u64, random: &mut Random) -> Result<(), String> {
    let budget = random.below(2 * made as usize + 2) as u64;
    let mut drained = board.clone();
    let first = drained.drain(budget);
    expect(first == (DONE, made.min(budget)), "drain gives a wrong count")?;
    let rest = drained.drain(MOST_DELIVERIES);
    expect(rest == (DONE, made - made.min(budget)), "drain gives a wrong count")?;
    expect(drained == *quiet, "drain and single deliveries part ways")
}

pub fn expect(holds: bool, wrong: &str) -> Result<(), String> {
    match holds {
        true => Ok(()),
        false => Err(wrong.to_string()),
    }
}
