//! Reads what `hand` prints: the answers apart, and what `waits` and `rings` tell. It takes nothing
//! but the forms as they are; anything else is an error.

use crate::board::Mode;

const HEADING: &str = "only the whole board shows";
const NOBODY: &str = "  nobody waits: nobody stands in a line";
const NO_RING: &str = "  no ring of waits exists";
/// What the second part of a broken line starts with.
const BROKEN: &str = "      ";

/// One who stands in a line: whom it waits for because they hold the object, and whom because they
/// stand ahead.
#[derive(Clone, PartialEq, Eq, Debug)]
pub struct Standing {
    pub process: u8,
    pub mode: Mode,
    pub holders: Vec<u8>,
    pub ahead: Vec<u8>,
}

/// The line of an object from the front, at the node where the object lives.
#[derive(Clone, PartialEq, Eq, Debug)]
pub struct Line {
    pub node: u8,
    pub object: u8,
    pub standing: Vec<Standing>,
}

#[derive(Clone, PartialEq, Eq, Debug)]
pub enum Status {
    /// The places that are filled with this ring.
    Recorded(Vec<u8>),
    NotYet,
    /// Its members whose places are filled with another.
    Another(Vec<u8>),
}

#[derive(Clone, PartialEq, Eq, Debug)]
pub struct ToldRing {
    pub processes: Vec<u8>,
    pub status: Status,
}

#[derive(Debug)]
pub struct Waits {
    pub lines: Vec<Line>,
    pub rings: Vec<ToldRing>,
}

#[derive(Debug)]
pub struct Rings {
    pub recorded: Vec<Vec<u8>>,
    pub rings: Vec<ToldRing>,
}

/// The answer to each line that was said, without the line itself, which is printed before it.
pub fn apart(printed: &str, said: &[String]) -> Result<Vec<String>, String> {
    let mut answers: Vec<String> = Vec::new();
    for line in printed.lines() {
        match (line.strip_prefix("> "), answers.last_mut()) {
            (Some(heard), _) => {
                if said.get(answers.len()).is_none_or(|said| said != heard) {
                    return Err(format!("it heard what was not said: {heard}"));
                }
                answers.push(String::new());
            }
            (None, Some(answer)) => *answer += &format!("{line}\n"),
            (None, None) => return Err(format!("it spoke first: {line}")),
        }
    }
    match answers.len() == said.len() {
        true => Ok(answers),
        false => Err(format!("{} lines were said, {} were heard", said.len(), answers.len())),
    }
}

/// The number that the answer to a command begins with.
pub fn answer_number(answer: &str) -> Result<u8, String> {
    number(answer.split_whitespace().next().unwrap_or_default())
}

pub fn waits(answer: &str) -> Result<Waits, String> {
    let whole = whole_lines(answer);
    let (before, after) = around_heading(&whole)?;
    Ok(Waits { lines: lines(before)?, rings: rings_that_exist(after)? })
}

pub fn rings(answer: &str) -> Result<Rings, String> {
    let whole = whole_lines(answer);
    let (before, after) = around_heading(&whole)?;
    Ok(Rings { recorded: recorded(before)?, rings: rings_that_exist(after)? })
}

fn unknown<T>(text: &str) -> Result<T, String> {
    Err(format!("not a form that is known: {text:?}"))
}

/// The lines of an answer, the broken ones put together again.
fn whole_lines(answer: &str) -> Vec<String> {
    let mut whole: Vec<String> = Vec::new();
    for line in answer.lines() {
        match (line.strip_prefix(BROKEN), whole.last_mut()) {
            (Some(rest), Some(last)) => *last += &format!(" {rest}"),
            _ => whole.push(line.to_string()),
        }
    }
    whole
}

/// What stands before the heading, and what after it.
fn around_heading(whole: &[String]) -> Result<(&[String], &[String]), String> {
    match whole.iter().position(|line| line == HEADING) {
        Some(place) => Ok((&whole[..place], &whole[place + 1..])),
        None => Err(format!("no line says {HEADING:?}")),
    }
}

fn lines(told: &[String]) -> Result<Vec<Line>, String> {
    if told == [NOBODY] {
        return Ok(Vec::new());
    }
    let mut lines: Vec<Line> = Vec::new();
    for text in told {
        match (line(text), lines.last_mut()) {
            (Some(line), _) => lines.push(line),
            (None, Some(line)) => line.standing.push(standing(text)?),
            (None, None) => return unknown(text),
        }
    }
    match lines.is_empty() || lines.iter().any(|line| line.standing.is_empty()) {
        true => Err("a line with nobody in it".to_string()),
        false => Ok(lines),
    }
}

/// `at node N, in the line of oK`
fn line(text: &str) -> Option<Line> {
    let (node, object) = text.strip_prefix("at node ")?.split_once(", in the line of o")?;
    Some(Line { node: number(node).ok()?, object: number(object).ok()?, standing: Vec::new() })
}

/// `  pK (MODE) waits for WHOM`
fn standing(text: &str) -> Result<Standing, String> {
    let parts = text.strip_prefix("  ").and_then(|text| {
        let (name, rest) = text.split_once(" (")?;
        let (mode, whom) = rest.split_once(") waits for ")?;
        Some((name, mode, whom))
    });
    let Some((name, mode, whom)) = parts else {
        return unknown(text);
    };
    let mode = match mode {
        "shared" => Mode::Shared,
        "exclusive" => Mode::Exclusive,
        _ => return unknown(text),
    };
    let (holders, ahead) = holders_and_ahead(whom)?;
    Ok(Standing { process: process(name)?, mode, holders, ahead })
}

/// Those who hold it; those who stand ahead. One of the two parts may be missing.
fn holders_and_ahead(whom: &str) -> Result<(Vec<u8>, Vec<u8>), String> {
    let holders = |text| counted(text, ", which holds it", ", which hold it");
    let ahead = |text| counted(text, ", which stands ahead", ", which stand ahead");
    match whom.split("; ").collect::<Vec<_>>()[..] {
        [first, second] => Ok((holders(first)?, ahead(second)?)),
        [only] if only.ends_with("ahead") => Ok((Vec::new(), ahead(only)?)),
        [only] => Ok((holders(only)?, Vec::new())),
        _ => unknown(whom),
    }
}

/// Processes, with what is said after one, or after several.
fn counted(text: &str, after_one: &str, after_several: &str) -> Result<Vec<u8>, String> {
    let (names, one) = match (text.strip_suffix(after_one), text.strip_suffix(after_several)) {
        (Some(names), _) => (names, true),
        (None, Some(names)) => (names, false),
        (None, None) => return unknown(text),
    };
    let processes = processes(names)?;
    match one == (processes.len() == 1) {
        true => Ok(processes),
        false => unknown(text),
    }
}

/// `  rings recorded: N`, then so many rings.
fn recorded(told: &[String]) -> Result<Vec<Vec<u8>>, String> {
    let (first, rest) = told.split_first().ok_or("nothing is told of recorded rings")?;
    let Some(count) = first.strip_prefix("  rings recorded: ") else {
        return unknown(first);
    };
    if usize::from(number(count)?) != rest.len() {
        return Err(format!("{count} rings counted, {} told", rest.len()));
    }
    let ring = |text: &String| match text.strip_prefix("    ring ") {
        Some(names) => processes(names),
        None => unknown(text),
    };
    rest.iter().map(ring).collect()
}

fn rings_that_exist(told: &[String]) -> Result<Vec<ToldRing>, String> {
    match told {
        [] => Err("nothing is told of rings that exist".to_string()),
        [only] if only == NO_RING => Ok(Vec::new()),
        _ => told.iter().map(|text| told_ring(text)).collect(),
    }
}

/// `  a ring exists: PROCESSES; STATUS`
fn told_ring(text: &str) -> Result<ToldRing, String> {
    let parts = text.strip_prefix("  a ring exists: ").and_then(|text| text.split_once("; "));
    let Some((names, said)) = parts else {
        return unknown(text);
    };
    Ok(ToldRing { processes: processes(names)?, status: status(said)? })
}

fn status(text: &str) -> Result<Status, String> {
    let another = |text: &str| {
        let names = text.strip_prefix("not recorded, but ")?.strip_suffix(" of it recorded another")?;
        Some(processes(names))
    };
    match (text, text.strip_prefix("recorded by "), another(text)) {
        ("not recorded yet", _, _) => Ok(Status::NotYet),
        (_, Some(names), _) => Ok(Status::Recorded(processes(names)?)),
        (_, _, Some(members)) => Ok(Status::Another(members?)),
        _ => unknown(text),
    }
}

/// `p0, p2, p1`
fn processes(text: &str) -> Result<Vec<u8>, String> {
    text.split(", ").map(process).collect()
}

fn process(text: &str) -> Result<u8, String> {
    match text.strip_prefix('p').map(number) {
        Some(Ok(process)) if process < 16 => Ok(process),
        _ => unknown(text),
    }
}

/// A decimal number as it is printed: digits only, no zero before others.
fn number(text: &str) -> Result<u8, String> {
    match text.parse::<u8>() {
        Ok(number) if number.to_string() == text => Ok(number),
        _ => unknown(text),
    }
}
