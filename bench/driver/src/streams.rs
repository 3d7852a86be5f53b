//! (e) The program `replay` beside `plain-replay` on long streams: what they print, byte for byte, and the processor time of the whole
//! process. That is user and system time together: their sum is exact, while the system parts them by what it sees at its ticks.

use crate::cases::Steps;
use crate::counting;
use crate::timing::Times;
use std::fs::{self, File};
use std::io::{self, BufReader, BufWriter, Read, Write};
use std::path::{Path, PathBuf};
use std::process::{Command, Stdio};

pub const OURS: &str = "target/bin/replay";
pub const PLAIN: &str = "target/bench/release/plain-replay";

/// A folder for files that go when it goes.
pub struct Folder(PathBuf);

impl Folder {
    pub fn new() -> io::Result<Self> {
        let path = std::env::temp_dir().join(format!("nimbra-bench-{}", std::process::id()));
        fs::create_dir_all(&path)?;
        Ok(Folder(path))
    }

    fn file(&self, name: &str) -> PathBuf {
        self.0.join(name)
    }
}

impl Drop for Folder {
    fn drop(&mut self) {
        let _ = fs::remove_dir_all(&self.0);
    }
}

/// A stream that was written: its file and how many steps it has.
pub struct Stream {
    file: PathBuf,
    pub steps: usize,
}

/// Where the writing of a stream stops.
pub enum End {
    Bytes(usize),
    Steps(usize),
}

/// Writes a script and its steps as records.
pub fn write(
    folder: &Folder,
    name: &str,
    (script, mut next): (Vec<u8>, Steps),
    end: End,
) -> io::Result<Stream> {
    let file = folder.file(name);
    let mut out = BufWriter::new(File::create(&file)?);
    let mut bytes = put_record(&mut out, &script)?;
    let mut steps = 0;
    while match end {
        End::Bytes(most) => bytes < most,
        End::Steps(most) => steps < most,
    } {
        bytes += put_record(&mut out, &next())?;
        steps += 1;
    }
    out.flush()?;
    Ok(Stream { file, steps })
}

/// A length of 16 bits and the bytes; how many that makes.
fn put_record(out: &mut impl Write, record: &[u8]) -> io::Result<usize> {
    out.write_all(&(record.len() as u16).to_be_bytes())?;
    out.write_all(record)?;
    Ok(record.len() + 2)
}

/// Plays a stream by a program, and sends what it prints there; it has to end with status 0.
fn play(program: &str, stream: &Stream, out: Stdio) -> Result<(), String> {
    let input = File::open(&stream.file).map_err(|error| error.to_string())?;
    let done = Command::new(program)
        .stdin(input)
        .stdout(out)
        .status()
        .map_err(|error| format!("{program}: {error}"))?;
    match done.success() {
        true => Ok(()),
        false => Err(format!("{program}: {done}")),
    }
}

/// Both programs print the same bytes; how many.
pub fn compare(folder: &Folder, stream: &Stream) -> Result<u64, String> {
    let outs = [(OURS, folder.file("ours")), (PLAIN, folder.file("plain"))];
    for (program, out) in &outs {
        let out = File::create(out).map_err(|error| error.to_string())?;
        play(program, stream, out.into())?;
    }
    let same = same_bytes(&outs[0].1, &outs[1].1).map_err(|error| error.to_string());
    for (_, out) in &outs {
        let _ = fs::remove_file(out);
    }
    match same? {
        Ok(bytes) => Ok(bytes),
        Err(place) => Err(format!("{OURS} and {PLAIN} do not print the same: byte {place} differs")),
    }
}

/// How many bytes two files have; or the place at which they differ.
fn same_bytes(ours: &Path, plain: &Path) -> io::Result<Result<u64, u64>> {
    let mut files = [BufReader::new(File::open(ours)?), BufReader::new(File::open(plain)?)];
    let mut parts = [vec![0; 1 << 20], vec![0; 1 << 20]];
    let mut place = 0;
    loop {
        let mut sizes = [0; 2];
        for ((file, part), size) in files.iter_mut().zip(&mut parts).zip(&mut sizes) {
            *size = read_full(file, part)?;
        }
        let [ours, plain] = [&parts[0][..sizes[0]], &parts[1][..sizes[1]]];
        if ours != plain {
            let same = ours.iter().zip(plain).take_while(|(a, b)| a == b).count();
            return Ok(Err(place + same as u64));
        }
        if ours.is_empty() {
            return Ok(Ok(place));
        }
        place += ours.len() as u64;
    }
}

fn read_full(file: &mut impl Read, part: &mut [u8]) -> io::Result<usize> {
    let mut filled = 0;
    while filled < part.len() {
        match file.read(&mut part[filled..])? {
            0 => break,
            size => filled += size,
        }
    }
    Ok(filled)
}

/// What the system says of the processes that this one has waited for.
#[repr(C)]
struct Usage {
    user: [i64; 2],
    system: [i64; 2],
    others: [i64; 14],
}

extern "C" {
    fn getrusage(who: i32, usage: *mut Usage) -> i32;
}

/// The processor time so far of the processes that this one has waited for, in nanoseconds.
fn children_time() -> f64 {
    const CHILDREN: i32 = -1;
    let mut usage = Usage { user: [0; 2], system: [0; 2], others: [0; 14] };
    // SAFETY: on Linux for x86-64 it fills two times of two words each, and 14 words behind them.
    let reply = unsafe { getrusage(CHILDREN, &mut usage) };
    assert_eq!(reply, 0);
    let nanoseconds = |[seconds, micros]: [i64; 2]| seconds as f64 * 1e9 + micros as f64 * 1e3;
    nanoseconds(usage.user) + nanoseconds(usage.system)
}

fn processor_time(program: &str, stream: &Stream) -> Result<f64, String> {
    let before = children_time();
    play(program, stream, Stdio::null())?;
    Ok(children_time() - before)
}

/// The processor times of both programs in turn; fewer rounds where one of them takes long.
pub fn times(stream: &Stream, rounds: usize) -> Result<[Times; 2], String> {
    const LONG: f64 = 8e9;
    let mut times = [Times(vec![]), Times(vec![])];
    for round in 0..rounds {
        for (program, times) in [OURS, PLAIN].into_iter().zip(&mut times) {
            times.0.push(processor_time(program, stream)?);
        }
        if round == 2 && times.iter().any(|times| times.best() > LONG) {
            break;
        }
    }
    Ok(times)
}

/// Instructions that each program takes for one step more: from streams of some steps and of twice as many.
pub fn counts(folder: &Folder, made: fn() -> (Vec<u8>, Steps)) -> Result<[f64; 2], String> {
    const STEPS: usize = 2000;
    let mut counts = [0.0; 2];
    for (program, count) in [OURS, PLAIN].into_iter().zip(&mut counts) {
        let mut totals = [0.0; 2];
        for (times, total) in [1, 2].into_iter().zip(&mut totals) {
            let end = End::Steps(times * STEPS);
            let stream = write(folder, "counted", made(), end).map_err(|error| error.to_string())?;
            let dumps = folder.file("dumps");
            counting::callgrind(&dumps, &[], Command::new(program).arg(&stream.file))?;
            *total = counting::total(&dumps.join("out"))?;
        }
        *count = (totals[1] - totals[0]) / STEPS as f64;
    }
    Ok(counts)
}
