//! Sub-commands over streams of sheets: the chart of one, a program's chart held against the plain one on
//! made streams, a term written for timing, and a program timed beside the plain chart.

use crate::chart;
use crate::random::Random;
use crate::streams::{add, any_stream, pieces};
use std::fs::File;
use std::io::{self, BufWriter, Write};
use std::path::{Path, PathBuf};
use std::process::{Command, Output, Stdio};
use std::time::{Duration, Instant};

/// How often each side is timed.
const ROUNDS: usize = 31;

/// A pause between two pieces lets the program read the first alone; so many in a stream.
const PAUSE: Duration = Duration::from_micros(200);
const MOST_PAUSES: usize = 20;

/// Prints the chart of a file or of standard input.
pub fn chart(file: Option<&str>) -> Result<(), String> {
    let totals = match file {
        Some(path) => File::open(path).and_then(chart::of_reader).map_err(|error| format!("{path}: {error}")),
        None => chart::of_reader(io::stdin().lock()).map_err(|error| format!("standard input: {error}")),
    };
    io::stdout().write_all(totals?.print().as_bytes()).map_err(|error| format!("standard output: {error}"))
}

/// How a stream is given to the program: as a file, or on standard input.
#[derive(Clone, Copy)]
pub enum Way {
    File,
    Whole,
    Pieces,
}

impl Way {
    pub fn name(self) -> &'static str {
        ["as a file", "on standard input whole", "on standard input in pieces"][self as usize]
    }
}

/// What was compared, and each stream on which the program differs.
#[derive(Default)]
pub struct Compared {
    pub streams: usize,
    /// How many were given in each way, in their order.
    pub by_way: [usize; 3],
    pub bytes: usize,
    pub most_sheets: u64,
    pub totals: chart::Totals,
    pub different: Vec<Different>,
}

pub struct Different {
    pub stream: Vec<u8>,
    pub way: Way,
    pub ours: Vec<u8>,
    pub plain: String,
    /// What else is wrong than the print.
    pub besides: String,
}

/// Runs the program on made streams: half of them as a file, the others on standard input. Only the first
/// differing ones, up to a number, are kept whole.
pub fn compare(program: &Path, count: u64, seed: u64, most_kept: usize) -> io::Result<Compared> {
    let mut random = Random::new(seed);
    let file = std::env::temp_dir().join(format!("compare-{}.stream", std::process::id()));
    let mut compared = Compared::default();
    for _ in 0..count {
        let stream = any_stream(&mut random);
        let way = [Way::File, Way::File, Way::Whole, Way::Pieces][random.below(4)];
        let output = output_on(program, &stream, way, &file, &mut random)?;
        let totals = chart::of_bytes(&stream);
        compared.add(stream, way, output, &totals, most_kept);
    }
    match std::fs::remove_file(&file) {
        Err(error) if error.kind() != io::ErrorKind::NotFound => Err(error),
        _ => Ok(compared),
    }
}

impl Compared {
    fn add(&mut self, stream: Vec<u8>, way: Way, output: Output, totals: &chart::Totals, most_kept: usize) {
        self.streams += 1;
        self.by_way[way as usize] += 1;
        self.bytes += stream.len();
        self.most_sheets = self.most_sheets.max(totals.sheets());
        self.totals.add(totals);
        let plain = totals.print();
        let besides = besides(&output);
        if output.stdout != plain.as_bytes() || !besides.is_empty() {
            let stream = if self.different.len() < most_kept { stream } else { Vec::new() };
            self.different.push(Different { stream, way, ours: output.stdout, plain, besides });
        }
    }
}

/// Expected are status 0 and nothing on standard error.
fn besides(output: &Output) -> String {
    let mut wrong = Vec::new();
    if !output.status.success() {
        wrong.push(output.status.to_string());
    }
    if !output.stderr.is_empty() {
        wrong.push(format!("standard error: {}", String::from_utf8_lossy(&output.stderr).trim_end()));
    }
    wrong.join(", ")
}

fn output_on(
    program: &Path,
    stream: &[u8],
    way: Way,
    file: &Path,
    random: &mut Random,
) -> io::Result<Output> {
    let mut command = Command::new(program);
    command.stdout(Stdio::piped()).stderr(Stdio::piped());
    match way {
        Way::File => {
            std::fs::write(file, stream)?;
            command.arg(file).stdin(Stdio::null()).output()
        }
        Way::Whole => output_fed(command, vec![stream]),
        Way::Pieces => output_fed(command, pieces(random, stream)),
    }
}

/// Feeds the pieces from a thread, since the program may leave some of them unread.
fn output_fed(mut command: Command, pieces: Vec<&[u8]>) -> io::Result<Output> {
    let mut child = command.stdin(Stdio::piped()).spawn()?;
    let mut input = child.stdin.take().expect("standard input is piped");
    std::thread::scope(|scope| {
        scope.spawn(move || {
            let pause_each = pieces.len().div_ceil(MOST_PAUSES).max(1);
            for (place, piece) in pieces.into_iter().enumerate() {
                input.write_all(piece)?;
                input.flush()?;
                if place % pause_each == 0 {
                    std::thread::sleep(PAUSE);
                }
            }
            io::Result::Ok(())
        });
        child.wait_with_output()
    })
}

/// Writes one stream of sheets, each preceded by its length.
pub fn write(path: &Path, sheets: impl Iterator<Item = Vec<u8>>) -> io::Result<()> {
    let mut file = BufWriter::new(File::create(path)?);
    let mut with_length = Vec::new();
    for sheet in sheets {
        with_length.clear();
        add(&mut with_length, &sheet);
        file.write_all(&with_length)?;
    }
    file.flush()
}

/// The program and this program's own `chart` on a file, as processes in turn.
pub fn bench(program: &Path, file: &Path) -> Result<(), String> {
    let itself = std::env::current_exe().map_err(|error| format!("this program: {error}"))?;
    let sides: [(&str, PathBuf, &[&str]); 2] =
        [("ours", program.to_path_buf(), &[]), ("plain", itself, &["chart"])];
    let mut times = [Vec::new(), Vec::new()];
    let mut prints = [Vec::new(), Vec::new()];
    for round in 0..ROUNDS {
        for turn in 0..2 {
            let place = (round + turn) % 2;
            let (_, path, words) = &sides[place];
            let (time, print) = timed(path, words, file)?;
            times[place].push(time);
            prints[place] = print;
        }
    }
    if prints[0] != prints[1] {
        return Err("the two charts differ, see `compare streams`".to_string());
    }
    println!("milliseconds of {ROUNDS} rounds in turn, the start of the process included");
    println!("{:6} {:>10} {:>10}", "", "best", "median");
    times.iter_mut().for_each(|side| side.sort());
    let figures = times.map(|side| [side[0], side[ROUNDS / 2]].map(|time| time.as_secs_f64() * 1000.0));
    for ((name, ..), [best, median]) in sides.iter().zip(figures) {
        println!("{name:6} {best:10.2} {median:10.2}");
    }
    let [ours, plain] = figures;
    println!("{:6} {:10.2} {:10.2}", "ratio", ours[0] / plain[0], ours[1] / plain[1]);
    Ok(())
}

fn timed(program: &Path, words: &[&str], file: &Path) -> Result<(Duration, Vec<u8>), String> {
    let start = Instant::now();
    let output = Command::new(program).args(words).arg(file).stdin(Stdio::null()).output();
    let time = start.elapsed();
    let output = output.map_err(|error| format!("{}: {error}", program.display()))?;
    match besides(&output).as_str() {
        "" => Ok((time, output.stdout)),
        wrong => Err(format!("{}: {wrong}", program.display())),
    }
}
