//! What `hand` tells of waits and rings, held against the plain board. Who is on a ring, and how short
//! a ring can be, is found here by search.

use crate::answers::{self, Line, Rings, Standing, Status, ToldRing, Waits};
use crate::board::{answer::DONE, Board, Message, Mode};
use crate::random::Random;
use crate::session::{self, Said, Session};
use crate::walk::{self, conflict, expect};
use std::fmt::Write;
use std::path::Path;

#[derive(Default)]
pub struct Counts {
    pub sessions: u64,
    pub commands: u64,
    pub refused: u64,
    pub boards: u64,
    pub with_a_ring: u64,
    pub with_several: u64,
    pub most_rings: usize,
    pub recorded: u64,
    pub not_yet: u64,
    pub another: u64,
    /// How many rings of each length were told.
    pub lengths: [u64; 17],
    pub differences: u64,
    /// The first difference in full.
    pub first: Option<String>,
}

impl Counts {
    fn differ(&mut self, session: &Session, upto: usize, wrong: &str) {
        self.differences += 1;
        let lines = session.lines()[..=upto].join("\n");
        self.first.get_or_insert_with(|| format!("after these lines:\n{lines}\n{wrong}"));
    }

    fn command(&mut self, answer: u8) {
        self.commands += 1;
        self.refused += u64::from(answer != DONE);
    }

    /// The rings told on one board.
    fn rings(&mut self, told: &[ToldRing]) {
        self.with_a_ring += u64::from(!told.is_empty());
        self.with_several += u64::from(told.len() > 1);
        self.most_rings = self.most_rings.max(told.len());
        for ring in told {
            self.lengths[ring.processes.len().min(16)] += 1;
            *match ring.status {
                Status::Recorded(_) => &mut self.recorded,
                Status::NotYet => &mut self.not_yet,
                Status::Another(_) => &mut self.another,
            } += 1;
        }
    }
}

/// So many sessions, each said to the program and to the plain board.
pub fn compare(program: &Path, count: u64, seed: u64) -> Result<Counts, String> {
    let mut random = Random::new(seed);
    let mut counts = Counts::default();
    for _ in 0..count {
        let session = session::session(&mut random);
        let text = session.lines().join("\n") + "\n";
        let ran = crate::printed_by(program, text.as_bytes());
        let (printed, ended) = ran.map_err(|error| format!("running the program: {error}"))?;
        let printed = String::from_utf8_lossy(&printed);
        counts.sessions += 1;
        match answers::apart(&printed, &session.lines()) {
            Ok(answers) if ended => follow(&session, &answers, &mut counts),
            Ok(_) => counts.differ(&session, session.said.len(), "the program did not end by itself"),
            Err(wrong) => {
                let wrong = format!("this was told, to all of them:\n{printed}but: {wrong}");
                counts.differ(&session, session.said.len(), &wrong);
            }
        }
    }
    Ok(counts)
}

/// Each answer is held against the plain board, which hears the same.
fn follow(session: &Session, answers: &[String], counts: &mut Counts) {
    let mut plain = Plain { board: session.opening.clone(), before: None };
    for (place, answer) in answers.iter().enumerate() {
        let checked = match place.checked_sub(1) {
            None => check_number(DONE, answer),
            Some(before) => plain.hear(session.said[before], answer, counts),
        };
        if let Err(wrong) = checked {
            let board = in_words(&plain.board);
            let wrong = format!("this was told:\n{answer}but: {wrong}\nthe plain board then:\n{board}");
            counts.differ(session, place, &wrong);
        }
    }
}

/// The plain board along a session.
struct Plain {
    board: Board,
    /// The rings that `waits` told just before, if nothing was wrong with them.
    before: Option<Vec<ToldRing>>,
}

impl Plain {
    fn hear(&mut self, said: Said, answer: &str, counts: &mut Counts) -> Result<(), String> {
        match said {
            Said::Waits => self.hear_waits(answer, counts),
            Said::Rings => self.hear_rings(answer),
            Said::Step(_) | Said::Drain(_) => {
                let number = said.run(&mut self.board);
                counts.command(number);
                check_number(number, answer)
            }
        }
    }

    fn hear_waits(&mut self, answer: &str, counts: &mut Counts) -> Result<(), String> {
        self.before = None;
        counts.boards += 1;
        let told = answers::waits(answer)?;
        counts.rings(&told.rings);
        check_waits(&self.board, &told)?;
        self.before = Some(told.rings);
        Ok(())
    }

    fn hear_rings(&mut self, answer: &str) -> Result<(), String> {
        let told = answers::rings(answer)?;
        check_recorded(&self.board, &told)?;
        let same = self.before.as_ref().is_none_or(|before| *before == told.rings);
        expect(same, "waits and rings tell different rings")
    }
}

fn check_number(plain: u8, answer: &str) -> Result<(), String> {
    let told = answers::answer_number(answer)?;
    expect(told == plain, &format!("the plain board answers {plain}"))
}

/// What `waits` tells: the lines with whom each waits for, object by object in any order, and the rings.
pub fn check_waits(board: &Board, told: &Waits) -> Result<(), String> {
    let mut lines = told.lines.clone();
    lines.sort_by_key(|line| line.object);
    expect(lines == plain_lines(board), "these are not the waits of the plain board")?;
    check_rings(board, &told.rings)
}

/// What `rings` tells: the filled places by rising starter, and the rings.
pub fn check_recorded(board: &Board, told: &Rings) -> Result<(), String> {
    let filled = board.rings.iter().filter(|ring| ring.filled());
    let plain: Vec<Vec<u8>> = filled.map(|ring| ring.iter().collect()).collect();
    expect(told.recorded == plain, "these are not the recorded rings of the plain board")?;
    check_rings(board, &told.rings)
}

fn plain_lines(board: &Board) -> Vec<Line> {
    let line = |object: u8| Line {
        node: board.object_homes[object as usize],
        object,
        standing: plain_standing(board, object),
    };
    (0..board.object_count).map(line).filter(|line| !line.standing.is_empty()).collect()
}

/// Who holds in conflict and stands ahead as well is named among the holders only.
fn plain_standing(board: &Board, object: u8) -> Vec<Standing> {
    let line: Vec<(u8, Mode)> = board.line(object).collect();
    let standing = |(place, &(process, mode)): (usize, &(u8, Mode))| {
        let blocks = |&(other, others): &(u8, Mode)| other != process && conflict(mode, others);
        let holders: Vec<u8> = board.holders(object).filter(blocks).map(|(other, _)| other).collect();
        let ahead = line[..place].iter().copied().filter(blocks).map(|(other, _)| other);
        let ahead = ahead.filter(|other| !holders.contains(other)).collect();
        Standing { process, mode, holders, ahead }
    };
    line.iter().enumerate().map(standing).collect()
}

/// The rings told are rings of waits, each told once and with its right status; the recorded ones are
/// all there; the others are as short as can be; and their members are just those who are on a ring.
fn check_rings(board: &Board, told: &[ToldRing]) -> Result<(), String> {
    let waits = walk::waits(board);
    for (place, ring) in told.iter().enumerate() {
        let name = names(&ring.processes);
        expect(is_ring(&ring.processes, &waits), &format!("{name} is no ring of waits"))?;
        let same = |other: &ToldRing| same_ring(&other.processes, &ring.processes);
        expect(!told[..place].iter().any(same), &format!("{name} is told twice"))?;
        let right = status(board, &ring.processes);
        expect(ring.status == right, &format!("the status of {name} is {right:?}"))?;
        if !matches!(right, Status::Recorded(_)) {
            let shortest = shortest_through(ring.processes[0], &waits);
            let short = shortest == Some(ring.processes.len());
            expect(short, &format!("{name} is no shortest ring through its first process"))?;
        }
    }
    check_none_missing(board, told)?;
    check_members(told, &waits)
}

fn check_none_missing(board: &Board, told: &[ToldRing]) -> Result<(), String> {
    for recorded in board.rings.iter().filter(|ring| ring.filled()) {
        let recorded: Vec<u8> = recorded.iter().collect();
        let there = told.iter().any(|ring| same_ring(&ring.processes, &recorded));
        expect(there, &format!("{} is recorded, but not told", names(&recorded)))?;
    }
    Ok(())
}

fn check_members(told: &[ToldRing], waits: &walk::Waits) -> Result<(), String> {
    for process in 0..16 {
        let member = told.iter().any(|ring| ring.processes.contains(&process));
        let on_ring = shortest_through(process, waits).is_some();
        expect(member || !on_ring, &format!("p{process} is on a ring, but in none that is told"))?;
        expect(on_ring || !member, &format!("p{process} is on no ring, but in one that is told"))?;
    }
    Ok(())
}

/// Two or more different processes, each waiting for the next, the last for the first.
fn is_ring(ring: &[u8], waits: &walk::Waits) -> bool {
    let different = (1..ring.len()).all(|place| !ring[..place].contains(&ring[place]));
    let mut follows = ring.iter().zip(ring.iter().cycle().skip(1));
    ring.len() >= 2 && different && follows.all(|(&at, &next)| waits[at as usize][next as usize])
}

/// Whether one is a turn of the other.
fn same_ring(one: &[u8], other: &[u8]) -> bool {
    one.len() == other.len() && (0..one.len()).any(|turn| one[turn..].iter().chain(&one[..turn]).eq(other))
}

/// What the plain board's places say of a ring, and the lists in flight: a member whose place is not
/// filled may still record it while its own list goes on.
fn status(board: &Board, ring: &[u8]) -> Status {
    let (mut recorders, mut others) = (Vec::new(), Vec::new());
    for (starter, place) in (0u8..).zip(&board.rings) {
        let recorded: Vec<u8> = place.iter().collect();
        if place.filled() && same_ring(&recorded, ring) {
            recorders.push(starter);
        } else if place.filled() && ring.contains(&starter) {
            others.push(starter);
        }
    }
    match (recorders.is_empty(), going_on(board, ring)) {
        (false, _) => Status::Recorded(recorders),
        (true, false) => Status::Another(others),
        (true, true) => Status::NotYet,
    }
}

/// A list is in flight whose starter is in the ring and has recorded none.
fn going_on(board: &Board, ring: &[u8]) -> bool {
    let is_list = |message: &Message| matches!(message, Message::ListToHome | Message::ListToObject { .. });
    let lists = board.messages.iter().zip(&board.lists).filter(|(message, _)| is_list(message));
    let mut starters = lists.map(|(_, list)| list.entries.at(0));
    starters.any(|starter| ring.contains(&starter) && !board.rings[starter as usize].filled())
}

/// The length of a shortest ring through a process: all who are reached in one wait, in two, and so
/// on, until the process itself is. None if it is on no ring.
fn shortest_through(process: u8, waits: &walk::Waits) -> Option<usize> {
    let goal = usize::from(process);
    let mut seen = [false; 16];
    let mut reached = vec![goal];
    for length in 1..=16 {
        let mut further = Vec::new();
        for next in 0..16 {
            if !seen[next] && reached.iter().any(|&at| waits[at][next]) {
                seen[next] = true;
                further.push(next);
            }
        }
        if seen[goal] {
            return Some(length);
        }
        reached = further;
    }
    None
}

fn names(processes: &[u8]) -> String {
    let names: Vec<String> = processes.iter().map(|process| format!("p{process}")).collect();
    names.join(", ")
}

/// The lines and the filled places of the plain board, for who looks at a difference.
fn in_words(board: &Board) -> String {
    let mut text = String::new();
    for line in plain_lines(board) {
        let _ = writeln!(text, "  node {}, line of o{}", line.node, line.object);
        for Standing { process, mode, holders, ahead } in line.standing {
            let (holders, ahead) = (names(&holders), names(&ahead));
            let _ = writeln!(text, "    p{process} {mode:?}, behind holders [{holders}], line [{ahead}]");
        }
    }
    for ring in board.rings.iter().filter(|ring| ring.filled()) {
        let ring: Vec<u8> = ring.iter().collect();
        let _ = writeln!(text, "  recorded {}", names(&ring));
    }
    let _ = writeln!(text, "  messages in flight {}", board.in_flight.count_ones());
    text
}
