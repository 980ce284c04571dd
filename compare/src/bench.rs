//! Time of reading, checking and running sheets held in memory, the proved library beside the plain
//! board; and laps of one side alone, for a tool that counts instructions.

use crate::board::{answer::DONE, Board, Message};
use crate::sheet::{self, Command, Sheet, MOST_COMMANDS};
use crate::sides::{self, Side};
use std::hint::black_box;
use std::path::{Path, PathBuf};
use std::time::Instant;

const ROUNDS: usize = 100;

/// A list of so many entries is a long one.
const LONG: u8 = 8;

/// The sheets of one folder.
struct Batch {
    name: String,
    sheets: Vec<Vec<u8>>,
}

/// A row for the sheets of the folder and one for each folder in it.
pub fn bench(dir: &Path) -> Result<(), String> {
    let ours = sides::ours();
    if let Err(missing) = &ours {
        println!("ours: {missing}");
    }
    println!(
        "best of {ROUNDS} interleaved rounds; long: commands that deliver a list of {LONG} or more entries"
    );
    println!("{:46} {:^18} {:^18}", "", "ns a command", "ns a sheet");
    println!(
        "{:14} {:>6} {:>8} {:>8} {:>6} {:>9} {:>8} {:>9} {:>8} {:>6}",
        "folder", "sheets", "commands", "accepted", "long", "ours", "plain", "ours", "plain", "ratio"
    );
    for batch in batches(dir)? {
        row(&batch, ours.as_ref().ok().copied())?;
    }
    Ok(())
}

fn row(batch: &Batch, ours: Option<Side>) -> Result<(), String> {
    let contents = contents(&batch.sheets);
    let (sheets, commands) = (batch.sheets.len() as f64, contents.commands as f64);
    if let Some(ours) = ours {
        same_work(batch, ours)?;
    }
    let sides: Vec<Side> = ours.into_iter().chain([sides::plain as Side]).collect();
    let best = best(&batch.sheets, &sides);
    let plain = best[best.len() - 1];
    let ours = if best.len() == 2 { best[0] } else { f64::NAN };
    println!(
        "{:14} {sheets:6} {commands:8} {:8} {:6} {:>9} {:>8} {:>9} {:>8} {:>6}",
        batch.name,
        contents.accepted,
        contents.long,
        figure(ours / commands, 1),
        figure(plain / commands, 1),
        figure(ours / sheets, 0),
        figure(plain / sheets, 0),
        figure(ours / plain, 2)
    );
    Ok(())
}

/// A dash where there is nothing to divide, or nothing to divide by.
fn figure(value: f64, digits: usize) -> String {
    match value.is_finite() {
        true => format!("{value:.digits$}"),
        false => "-".to_string(),
    }
}

/// What sheets hold, refused sheets left out.
#[derive(Debug, Default)]
pub struct Contents {
    pub commands: usize,
    pub accepted: usize,
    /// Commands that deliver a long list.
    pub long: usize,
}

pub fn contents(sheets: &[Vec<u8>]) -> Contents {
    let mut contents = Contents::default();
    for sheet in sheets.iter().filter_map(|bytes| Sheet::read(bytes).ok()) {
        let mut board = sheet.opening().expect("a sheet that is read has an opening");
        for command in sheet.each_command() {
            contents.commands += 1;
            contents.long += usize::from(delivers_long_list(&board, command));
            contents.accepted += usize::from(command.run(&mut board) == DONE);
        }
    }
    contents
}

fn delivers_long_list(board: &Board, command: Command) -> bool {
    let Command::Deliver { number } = command else {
        return false;
    };
    let number = usize::from(number);
    match board.messages[number] {
        Message::ListToHome | Message::ListToObject { .. } => board.lists[number].length >= LONG,
        _ => false,
    }
}

/// Times are compared only where both sides give the same answers.
fn same_work(batch: &Batch, ours: Side) -> Result<(), String> {
    let mut rooms = [[0; MOST_COMMANDS]; 2];
    let [our_room, plain_room] = &mut rooms;
    for bytes in &batch.sheets {
        if ours(bytes, our_room) != sides::plain(bytes, plain_room) || our_room != plain_room {
            return Err(format!("{}: the two sides differ, see `compare agree`", batch.name));
        }
    }
    Ok(())
}

/// The best time of each side for one round over all sheets, in nanoseconds. The sides take turns,
/// so that both meet the same noise.
fn best(sheets: &[Vec<u8>], sides: &[Side]) -> Vec<f64> {
    let mut best = vec![f64::INFINITY; sides.len()];
    let mut room = [0; MOST_COMMANDS];
    for _ in 0..ROUNDS {
        for (side, best) in sides.iter().zip(&mut best) {
            let start = Instant::now();
            lap(sheets, *side, &mut room);
            *best = best.min(start.elapsed().as_nanos() as f64);
        }
    }
    best
}

fn lap(sheets: &[Vec<u8>], side: Side, room: &mut [u8]) {
    for bytes in sheets {
        black_box(side(black_box(bytes), room));
        black_box(&*room);
    }
}

/// One side so many times over a sheet, or over the sheets of a folder. What else this does is the
/// same for any count, so two counts can be subtracted.
pub fn laps(side: &str, path: &Path, count: u64) -> Result<(), String> {
    let side = match side {
        "ours" => sides::ours()?,
        "plain" => sides::plain,
        _ => return Err(format!("no such side: {side}")),
    };
    let sheets = match path.is_dir() {
        true => load(path),
        false => std::fs::read(path).map(|bytes| vec![bytes]),
    };
    let sheets = sheets.map_err(|error| format!("{}: {error}", path.display()))?;
    let mut room = [0; MOST_COMMANDS];
    for _ in 0..count {
        lap(&sheets, side, &mut room);
    }
    let commands: usize = sheets.iter().map(|bytes| sheet::commands_part(bytes).len() / 2).sum();
    println!("sheets {} commands {commands}", sheets.len());
    Ok(())
}

/// The folder, and each folder in it, that has sheets.
fn batches(dir: &Path) -> Result<Vec<Batch>, String> {
    let wrong = |error| format!("{}: {error}", dir.display());
    let mut folders = vec![dir.to_path_buf()];
    folders.extend(paths(dir).map_err(wrong)?.into_iter().filter(|path| path.is_dir()));
    let mut batches = Vec::new();
    for folder in folders {
        let sheets = load(&folder).map_err(wrong)?;
        let name = folder.file_name().unwrap_or_default().to_string_lossy().into_owned();
        if !sheets.is_empty() {
            batches.push(Batch { name, sheets });
        }
    }
    match batches.len() {
        0 => Err(format!("{}: no sheet here", dir.display())),
        _ => Ok(batches),
    }
}

/// The sheets of a folder in the order of their names.
fn load(dir: &Path) -> std::io::Result<Vec<Vec<u8>>> {
    let sheet = |path: &PathBuf| path.extension().is_some_and(|extension| extension == "sheet");
    paths(dir)?.iter().filter(|path| sheet(path)).map(std::fs::read).collect()
}

fn paths(dir: &Path) -> std::io::Result<Vec<PathBuf>> {
    let paths: std::io::Result<Vec<PathBuf>> =
        std::fs::read_dir(dir)?.map(|entry| Ok(entry?.path())).collect();
    let mut paths = paths?;
    paths.sort();
    Ok(paths)
}
