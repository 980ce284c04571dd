//! Sub-commands over a plain board: print, make, against, agree, told, walk, hex, unhex, bench, laps;
//! and over streams of sheets: chart, streams, term, term-bench.

mod agree;
mod answers;
mod bench;
mod board;
#[cfg(test)]
mod cases;
mod chart;
#[cfg(test)]
mod chart_cases;
#[cfg(test)]
mod chart_slow;
mod make;
#[cfg(test)]
mod mistakes;
mod random;
mod session;
mod sheet;
mod sides;
#[cfg(test)]
mod slow;
mod streams;
mod telling;
mod term;
mod walk;

use random::Random;
use std::io::{self, Read, Write};
use std::path::{Path, PathBuf};
use std::process::{Command, ExitCode, Stdio};

const USAGE: &str = "usage:
  compare print                       < sheet
  compare make DIR COUNT SEED [KIND]
  compare against PROGRAM COUNT SEED [KIND]
  compare agree COUNT SEED [KIND]
  compare told PROGRAM COUNT SEED
  compare walk STEPS SEED
  compare hex FILE
  compare unhex                       < hex text
  compare bench DIR
  compare laps ours|plain PATH COUNT
  compare chart [FILE]
  compare streams PROGRAM COUNT SEED
  compare term FILE COUNT SEED [KIND]
  compare term-bench PROGRAM FILE
KIND is accepted, contended, lists, refused, mixed, flooded or damaged; left out, any of them.";

/// Where differing sheets are kept, and how many.
const DIFFERENCES: &str = "differences";
const MOST_KEPT: usize = 20;

fn main() -> ExitCode {
    let words: Vec<String> = std::env::args().skip(1).collect();
    let words: Vec<&str> = words.iter().map(String::as_str).collect();
    let done = match words[..] {
        ["print"] => print(),
        ["make", dir, count, seed] => make(dir, count, seed, None),
        ["make", dir, count, seed, kind] => make(dir, count, seed, Some(kind)),
        ["against", program, count, seed] => against(program, count, seed, None),
        ["against", program, count, seed, kind] => against(program, count, seed, Some(kind)),
        ["agree", count, seed] => agree(count, seed, None),
        ["agree", count, seed, kind] => agree(count, seed, Some(kind)),
        ["told", program, count, seed] => telling(program, count, seed),
        ["walk", steps, seed] => walk(steps, seed),
        ["hex", file] => hex(file),
        ["unhex"] => unhex(),
        ["bench", dir] => bench::bench(Path::new(dir)),
        ["laps", side, path, count] => {
            number(count).and_then(|count| bench::laps(side, Path::new(path), count))
        }
        ["chart"] => term::chart(None),
        ["chart", file] => term::chart(Some(file)),
        ["streams", program, count, seed] => streams(program, count, seed),
        ["term", file, count, seed] => term(file, count, seed, None),
        ["term", file, count, seed, kind] => term(file, count, seed, Some(kind)),
        ["term-bench", program, file] => term::bench(Path::new(program), Path::new(file)),
        _ => Err(USAGE.to_string()),
    };
    match done {
        Ok(()) => ExitCode::SUCCESS,
        Err(wrong) => {
            eprintln!("{wrong}");
            ExitCode::FAILURE
        }
    }
}

fn number(word: &str) -> Result<u64, String> {
    word.parse().map_err(|_| format!("not a number: {word}"))
}

fn told<T>(result: io::Result<T>, what: &str) -> Result<T, String> {
    result.map_err(|error| format!("{what}: {error}"))
}

fn standard_input() -> Result<Vec<u8>, String> {
    let mut bytes = Vec::new();
    told(io::stdin().read_to_end(&mut bytes), "standard input")?;
    Ok(bytes)
}

fn standard_output(bytes: &[u8]) -> Result<(), String> {
    told(io::stdout().write_all(bytes), "standard output")
}

fn print() -> Result<(), String> {
    standard_output(sheet::print(&standard_input()?).as_bytes())
}

/// The sheets of a seed, one after the other.
fn sheets(count: u64, seed: u64, kind: Option<&str>) -> Result<impl Iterator<Item = Vec<u8>>, String> {
    let kind = match kind {
        None => None,
        Some(name) => {
            let known = make::KINDS.iter().find(|known| known.0 == name);
            Some(known.ok_or(format!("no such kind: {name}"))?.1)
        }
    };
    let mut random = Random::new(seed);
    Ok((0..count).map(move |_| {
        let kind = kind.unwrap_or_else(|| make::any_kind(&mut random));
        make::sheet(&mut random, kind)
    }))
}

fn make(dir: &str, count: &str, seed: &str, kind: Option<&str>) -> Result<(), String> {
    told(std::fs::create_dir_all(dir), dir)?;
    for (place, bytes) in sheets(number(count)?, number(seed)?, kind)?.enumerate() {
        let path = Path::new(dir).join(format!("{place:05}.sheet"));
        told(std::fs::write(&path, bytes), &path.display().to_string())?;
    }
    Ok(())
}

/// What the program prints on the sheet, and whether it ended by itself. It is fed from a thread,
/// since it may print before it has read everything or leave some of it unread.
fn printed_by(program: &Path, bytes: &[u8]) -> io::Result<(Vec<u8>, bool)> {
    let mut child = Command::new(program).stdin(Stdio::piped()).stdout(Stdio::piped()).spawn()?;
    let mut input = child.stdin.take().expect("standard input is piped");
    let output = std::thread::scope(|scope| {
        scope.spawn(move || input.write_all(bytes));
        child.wait_with_output()
    })?;
    Ok((output.stdout, output.status.code().is_some()))
}

fn against(program: &str, count: &str, seed: &str, kind: Option<&str>) -> Result<(), String> {
    let program = told(PathBuf::from(program).canonicalize(), program)?;
    let (mut run, mut refused, mut different) = (0, 0, 0);
    for bytes in sheets(number(count)?, number(seed)?, kind)? {
        let plain = sheet::print(&bytes);
        let (ours, ended) = told(printed_by(&program, &bytes), "running the program")?;
        run += 1;
        refused += usize::from(plain.starts_with("sheet"));
        if !ended || ours != plain.as_bytes() {
            told(keep(different, &bytes, &ours, plain.as_bytes()), DIFFERENCES)?;
            different += 1;
        }
    }
    println!("sheets {run} (of them refused {refused}) differences {different}");
    none_differ("sheets", different)
}

/// The proved library and the plain board in this process, which is much faster than running a program.
fn agree(count: &str, seed: &str, kind: Option<&str>) -> Result<(), String> {
    let ours = sides::ours()?;
    let seed = number(seed)?;
    let mut rooms = Random::new(!seed);
    let (mut run, mut commands, mut different) = (0, 0, 0);
    let mut answered = [0; 256];
    for bytes in sheets(number(count)?, seed, kind)? {
        let both = agree::both(ours, &bytes, &mut rooms);
        run += 1;
        commands += both.commands;
        answered[usize::from(both.plain.answer)] += 1;
        if both.ours != both.plain {
            told(keep(different, &bytes, &both.ours.bytes(), &both.plain.bytes()), DIFFERENCES)?;
            different += 1;
        }
    }
    println!("sheets {run} with {commands} commands, differences {different}");
    for (answer, sheets) in answered.iter().enumerate().filter(|(_, &sheets)| sheets != 0) {
        println!("answer {answer}: {sheets} sheets");
    }
    none_differ("sheets", different)
}

/// What the program tells of rings in made sessions, against a search on the plain board.
fn telling(program: &str, count: &str, seed: &str) -> Result<(), String> {
    let program = told(PathBuf::from(program).canonicalize(), program)?;
    let counts = telling::compare(&program, number(count)?, number(seed)?)?;
    println!("sessions {} with {} commands (refused {})", counts.sessions, counts.commands, counts.refused);
    println!(
        "boards compared {} (with a ring {}, with several {}, at most {} on a board)",
        counts.boards, counts.with_a_ring, counts.with_several, counts.most_rings
    );
    println!(
        "rings told {}: recorded {}, not recorded yet {}, not recorded where a member recorded another {}",
        counts.recorded + counts.not_yet + counts.another,
        counts.recorded,
        counts.not_yet,
        counts.another
    );
    let lengths = counts.lengths.iter().enumerate().filter(|(_, &rings)| rings != 0);
    let lengths: Vec<String> = lengths.map(|(length, rings)| format!("{length}: {rings}")).collect();
    println!("rings by length: {}", lengths.join(", "));
    println!("differences {}", counts.differences);
    match counts.first {
        None => Ok(()),
        Some(first) => Err(format!("the first difference, {first}")),
    }
}

/// The program's chart and the plain one on made streams.
fn streams(program: &str, count: &str, seed: &str) -> Result<(), String> {
    let program = told(PathBuf::from(program).canonicalize(), program)?;
    let compared = term::compare(&program, number(count)?, number(seed)?, MOST_KEPT);
    let compared = told(compared, "running the program")?;
    let (totals, [file, whole, pieces]) = (&compared.totals, compared.by_way);
    println!(
        "streams {} with {} bytes, at most {} sheets in one",
        compared.streams, compared.bytes, compared.most_sheets
    );
    println!("as a file {file}, on standard input whole {whole}, in pieces {pieces}");
    print!("all charts together:\n{}", totals.print());
    println!("differences {}", compared.different.len());
    for (place, one) in compared.different.iter().enumerate().take(MOST_KEPT) {
        println!("{place:05} {} {}", one.way.name(), one.besides);
        told(keep_as("stream", place, &one.stream, &one.ours, one.plain.as_bytes()), DIFFERENCES)?;
    }
    none_differ("streams", compared.different.len())
}

/// One stream of made sheets for timing; without a kind, sheets as in a term.
fn term(file: &str, count: &str, seed: &str, kind: Option<&str>) -> Result<(), String> {
    let (count, seed) = (number(count)?, number(seed)?);
    let written = match kind {
        Some(_) => term::write(Path::new(file), sheets(count, seed, kind)?),
        None => {
            let mut random = Random::new(seed);
            term::write(Path::new(file), (0..count).map(|_| streams::term_sheet(&mut random)))
        }
    };
    told(written, file)
}

fn none_differ(what: &str, different: usize) -> Result<(), String> {
    match different {
        0 => Ok(()),
        _ => Err(format!("the first differing {what} are kept in {DIFFERENCES}/")),
    }
}

/// Keeps a differing sheet, and what each side made of it, if it is one of the first.
fn keep(place: usize, bytes: &[u8], ours: &[u8], plain: &[u8]) -> io::Result<()> {
    keep_as("sheet", place, bytes, ours, plain)
}

fn keep_as(what: &str, place: usize, bytes: &[u8], ours: &[u8], plain: &[u8]) -> io::Result<()> {
    if place >= MOST_KEPT {
        return Ok(());
    }
    let dir = Path::new(DIFFERENCES);
    std::fs::create_dir_all(dir)?;
    std::fs::write(dir.join(format!("{place:05}.{what}")), bytes)?;
    std::fs::write(dir.join(format!("{place:05}.ours")), ours)?;
    std::fs::write(dir.join(format!("{place:05}.plain")), plain)
}

fn walk(steps: &str, seed: &str) -> Result<(), String> {
    let counts = walk::walk(number(steps)?, number(seed)?)?;
    println!(
        "openings {} boards {} (after commands accepted {}, refused {}), most load {}",
        counts.openings, counts.boards, counts.accepted, counts.refused, counts.most_load
    );
    println!(
        "drains {} with {} deliveries (longest {}), of them ending with a ring of waits {}",
        counts.drains, counts.deliveries_in_drains, counts.longest_drain, counts.drained_with_ring
    );
    println!(
        "rings recorded {}, the longest of {}, at most {} on a board; nothing wrong found",
        counts.rings_recorded, counts.longest_ring, counts.most_rings
    );
    Ok(())
}

fn hex(file: &str) -> Result<(), String> {
    let bytes = told(std::fs::read(file), file)?;
    let text: Vec<String> = bytes.iter().map(|byte| format!("{byte:02X}")).collect();
    println!("{}", text.join(" "));
    Ok(())
}

fn unhex() -> Result<(), String> {
    let text = standard_input()?;
    let digits: Vec<u8> = text.into_iter().filter(|byte| !byte.is_ascii_whitespace()).collect();
    if !digits.len().is_multiple_of(2) {
        return Err("an odd number of hex digits".to_string());
    }
    let value = |digit: u8| (digit as char).to_digit(16).ok_or("not a hex digit".to_string());
    let bytes: Result<Vec<u8>, String> =
        digits.chunks(2).map(|pair| Ok((value(pair[0])? << 4 | value(pair[1])?) as u8)).collect();
    standard_output(&bytes?)
}
