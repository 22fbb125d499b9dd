//! Runs the programs that `make` builds on whole and damaged inputs, and holds
//! each run to the program's manual page.
//!
//! Arguments: the folder of the programs, the folder of their samples, how many
//! inputs each program is given, the seed, and the programs. An input is a
//! whole picture, one with a damaged header, one with damaged bytes, noise, or
//! one at the limits. It comes as a file, or as a pipe in pieces, or is a folder,
//! which cannot be read; the output goes to a file or to a full device; at times
//! there are arguments.
//!
//! A run must end in time, by no signal, with the status 0; standard output and
//! standard error must be, byte for byte, what the page says: the header is read
//! here by a reader of its own, and coefficients, decoded samples and searches
//! are the published Rust's. `recode_pgm` must leave unread what stands behind the
//! picture, and `percents` and `benches` everything.
//!
//! A line for each program says how many inputs it was given, at how many it did
//! something else, and how many it accepted and refused. The first that differs,
//! made smaller for some seconds, is shown before. The status is 0 only if there
//! is none.

#[allow(dead_code)]
mod forward;
#[allow(dead_code)]
mod numbers;
#[allow(dead_code)]
mod percents;
#[allow(dead_code)]
mod planes;
#[allow(dead_code)]
mod searches;

use j2k_codec_math::jpeg::{fdct, idct};
use numbers::{Random, SEED};
use planes::{any_plane, blocks, cut, together, Plane};
use std::collections::BTreeMap;
use std::fs::{File, OpenOptions};
use std::io::{pipe, Read, Seek, SeekFrom, Write};
use std::os::unix::process::ExitStatusExt;
use std::process::{Command, Stdio};
use std::sync::{Arc, Mutex};
use std::time::{Duration, Instant};

const TIME_LIMIT: Duration = Duration::from_secs(5);
/// For making an input smaller.
const SMALLER: Duration = Duration::from_secs(20);

const K1: [u8; 64] = [
    16, 11, 10, 16, 24, 40, 51, 61, 12, 12, 14, 19, 26, 58, 60, 55, 14, 13, 16, 24, 40, 57, 69, 56,
    14, 17, 22, 29, 51, 87, 80, 62, 18, 22, 37, 56, 68, 109, 103, 77, 24, 35, 55, 64, 81, 104, 113,
    92, 49, 64, 78, 87, 103, 121, 120, 101, 72, 92, 95, 98, 112, 100, 103, 99,
];

// ---- what the manual pages say

#[derive(PartialEq)]
struct Run {
    /// Or how it ended instead.
    status: String,
    out: Vec<u8>,
    err: Vec<u8>,
    /// How much was read, where that is stated and can be seen.
    read: Option<u64>,
}

/// Width, height and length of the header, or the refusal's number.
fn header(input: &[u8]) -> Result<(usize, usize, usize), u32> {
    // The bytes in no comment, each with the number of bytes up to it.
    let mut bare = Vec::new();
    let mut comment = false;
    for (n, &b) in (1..=65_536).zip(input) {
        if comment {
            comment = b != b'\r' && b != b'\n';
        } else if b == b'#' {
            comment = true;
        } else {
            bare.push((b, n));
        }
    }
    let mut rest = bare.into_iter().peekable();
    for magic in *b"P5" {
        rest.next_if(|(b, _)| *b == magic).ok_or(10u32)?;
    }
    let space = |&(b, _): &(u8, usize)| b" \t\r\n".contains(&b);
    let mut number = || {
        rest.next_if(space).ok_or(10u32)?;
        while rest.next_if(space).is_some() {}
        let mut digits = Vec::new();
        while let Some((digit, _)) = rest.next_if(|(b, _)| b.is_ascii_digit()) {
            digits.push(digit);
        }
        if digits.is_empty() {
            return Err(10u32);
        }
        let zeros = digits.iter().take_while(|d| **d == b'0').count();
        let digits = String::from_utf8(digits.split_off(zeros)).expect("digits");
        // None: 0, or of more than four digits.
        Ok(digits.parse::<usize>().ok().filter(|_| digits.len() <= 4))
    };
    let (width, height, maxval) = (number()?, number()?, number()?);
    let (_, length) = rest.next_if(space).ok_or(10u32)?;
    if maxval != Some(255) {
        return Err(10);
    }
    match (width, height) {
        (Some(width @ 1..=4096), Some(height @ 1..=4096)) => Ok((width, height, length)),
        _ => Err(8),
    }
}

fn recoded(plane: &Plane) -> Vec<u8> {
    let decoded: Vec<Vec<u8>> = cut(plane)
        .iter()
        .map(|block| {
            let mut samples = [0; 64];
            idct::islow_block(&fdct::fdct_quantize(block, &[1; 64]), &mut samples);
            samples.to_vec()
        })
        .collect();
    let size = (plane.width, plane.height);
    together(&decoded, 8, blocks(plane.width), size)
}

fn coefficients(input: &[u8]) -> Result<Vec<u8>, u32> {
    let samples = input.strip_prefix(b"P5\n8 8\n255\n").ok_or(7u32)?;
    let block: &[u8; 64] = samples.try_into().map_err(|_| 7u32)?;
    let lines = fdct::fdct_quantize(block, &[1; 64])
        .chunks(8)
        .map(|line| {
            line.iter()
                .map(i16::to_string)
                .collect::<Vec<_>>()
                .join(" ")
                + "\n"
        })
        .collect::<String>();
    Ok(lines.into())
}

/// What is written, the refusal, and how much is read of a whole picture.
fn recode(input: &[u8]) -> (Vec<u8>, Result<usize, u32>) {
    let (width, height, length) = match header(input) {
        Ok(found) => found,
        Err(number) => return (Vec::new(), Err(number)),
    };
    let mut out = format!("P5\n{width} {height}\n255\n").into_bytes();
    let raster = &input[length..];
    let whole = raster.len() >= width * height;
    let rows = if whole {
        height
    } else {
        raster.len() / width / 8 * 8
    };
    if rows > 0 {
        out.extend(recoded(&Plane {
            width,
            height: rows,
            samples: raster[..width * rows].to_vec(),
        }));
    }
    let end = length + width * height;
    (out, if whole { Ok(end) } else { Err(10) })
}

fn fewest(input: &[u8]) -> Result<Vec<u8>, u32> {
    let (width, height, length) = header(input)?;
    let end = length + width * height;
    if end > input.len().min(131_072) {
        return Err(10);
    }
    let plane = Plane {
        width,
        height,
        samples: input[length..end].to_vec(),
    };
    let trials = searches::trials(&plane, &K1);
    let mut text = String::new();
    for error in [0, 1, 4, 16, 64, 256] {
        let limit = error * (width * height) as u64;
        text += &match searches::answer(&trials, limit, 200) {
            [0, ..] => format!("squared error {limit}: none tried is good, tried 200\n"),
            [percent, off, _] => {
                format!(
                    "squared error {limit}: {percent} percent, off by at most {off}, tried 200\n"
                )
            }
        };
    }
    Ok(text.into())
}

/// What the run must be, and the label under which it is counted.
fn expected(program: &Program, input: &[u8], ways: &Ways) -> (Run, String) {
    let unwritten = || {
        format!(
            "{}: standard output: No space left on device\n",
            program.name
        )
    };
    let refused = |number: u32| format!("refused {number}\n");
    let mut run = Run {
        status: "exit status: 0".to_string(),
        out: Vec::new(),
        err: Vec::new(),
        read: None,
    };
    let mut label = "accepted".to_string();
    match program.name.as_str() {
        "coefficients" => {
            run.out = coefficients(input).unwrap_or_else(|number| {
                label = format!("refused {number}");
                refused(number).into()
            });
            if ways.full {
                run.err = unwritten().into();
            }
        }
        "recode_pgm" => {
            let (out, end) = recode(input);
            if ways.full && !out.is_empty() {
                run.err = unwritten().into();
                label = "unwritten".to_string();
            } else {
                match end {
                    Ok(end) => run.read = Some(end as u64),
                    Err(number) => {
                        label = format!("refused {number}");
                        run.err = refused(number).into();
                    }
                }
            }
            run.out = out;
        }
        "fewest_pgm" => match fewest(input) {
            Ok(out) => run.out = out,
            Err(number) => {
                label = format!("refused {number}");
                run.err = refused(number).into();
            }
        },
        _ => {
            run.out = program.sample_out.clone();
            run.read = Some(0);
        }
    }
    if ways.full {
        run.out.clear();
    }
    if ways.source != Source::File {
        run.read = None;
    }
    (run, label)
}

// ---- inputs

const SPACES: [&str; 12] = [
    " ",
    "\n",
    "\t",
    "\r",
    "\r\n",
    "  ",
    "\n\n\t ",
    " #\n",
    "# 9 9\n ",
    "\n#c\r#\n",
    "#\r\n",
    " #P5\r\n",
];

const ODD_SPACES: [&str; 14] = [
    "",
    "\x0b",
    "\x0c",
    "\0",
    ",",
    "#",
    "#c",
    "# 8 8 255",
    "\u{a0}",
    "x",
    "-",
    " +",
    "\n.",
    "#\n",
];

const MAGICS: [&str; 14] = [
    "",
    "P",
    "5",
    "P2",
    "P6",
    "P1",
    "p5",
    "P55",
    "P5P5",
    "PP5",
    " P5",
    "#c\nP5",
    "P#\n5",
    "\u{feff}P5",
];

const NUMBERS: [&str; 40] = [
    "",
    "0",
    "1",
    "2",
    "7",
    "8",
    "9",
    "15",
    "16",
    "17",
    "254",
    "255",
    "256",
    "0255",
    "4095",
    "4096",
    "4097",
    "40960",
    "65535",
    "65536",
    "99999",
    "2147483647",
    "2147483648",
    "4294967295",
    "4294967296",
    "4294967304",
    "9223372036854775807",
    "9223372036854775808",
    "18446744073709551615",
    "18446744073709551616",
    "18446744073709551624",
    "100000000000000000000000000000000000000008",
    "-1",
    "-8",
    "+8",
    "8.0",
    "0x8",
    "1e1",
    "\u{668}",
    "00000000000000000000000000000000000000000000000000000000008",
];

/// What headers are made of.
const HEADER_BYTES: &[u8] = b"P5 \t\r\n#0123456789\x0b\x0c\0-+";

fn pick<'a, T: ?Sized>(random: &mut Random, from: &[&'a T]) -> &'a T {
    from[random.below(from.len() as u64) as usize]
}

fn chance(random: &mut Random, one_in: u64) -> bool {
    random.below(one_in) == 0
}

fn noise(random: &mut Random, most: u64) -> Vec<u8> {
    let length = random.below(most + 1);
    let header = chance(random, 2);
    let any = |_| match header {
        true => HEADER_BYTES[random.below(HEADER_BYTES.len() as u64) as usize],
        false => random.next() as u8,
    };
    (0..length).map(any).collect()
}

/// A header of which the parts may be replaced: the magic number, white space, width,
/// white space, height, white space, maxval, and one byte of white space.
fn parts(random: &mut Random, width: usize, height: usize, loose: bool) -> Vec<Vec<u8>> {
    let mut all: Vec<String> = ["P5", "\n", "", " ", "", "\n", "255", "\n"]
        .map(String::from)
        .into();
    all[2] = width.to_string();
    all[4] = height.to_string();
    if loose {
        for n in [1, 3, 5] {
            all[n] = pick(random, &SPACES).to_string();
            // A comment alone is no white space.
            if !all[n].starts_with(char::is_whitespace) {
                all[n].push(' ');
            }
        }
        for n in [2, 4, 6] {
            match random.below(8) {
                0 => all[n].insert_str(0, "000"),
                1 => all[n].insert_str(1, "#in a number\r"),
                _ => {}
            }
        }
        all[7] = pick(random, &[" ", "\n", "\t", "\r", "#c\n\n", "#\r#\n "]).to_string();
    }
    all.into_iter().map(String::into_bytes).collect()
}

fn damage_parts(random: &mut Random, parts: &mut Vec<Vec<u8>>) {
    let n = random.below(parts.len().max(1) as u64) as usize;
    match random.below(12) {
        _ if parts.len() < 8 => parts.push(noise(random, 8)),
        0 => parts[0] = pick(random, &MAGICS).into(),
        1..=2 => parts[1 + 2 * (n % 4)] = pick(random, &ODD_SPACES).into(),
        3..=8 => parts[2 + 2 * (n % 3)] = pick(random, &NUMBERS).into(),
        9 => drop(parts.remove(n)),
        10 => parts.insert(n, parts[n].clone()),
        _ => {
            let m = random.below(parts.len() as u64) as usize;
            parts.swap(n, m);
        }
    }
}

fn damage_bytes(random: &mut Random, bytes: &mut Vec<u8>) {
    if bytes.is_empty() {
        *bytes = noise(random, 80);
        return;
    }
    let length = bytes.len() as u64;
    // Half of them in the header.
    let within = if chance(random, 2) {
        length.min(14)
    } else {
        length
    };
    let at = random.below(within) as usize;
    let end = at + 1 + random.below((length - at as u64).min(9)) as usize;
    let any = match chance(random, 2) {
        true => random.next() as u8,
        false => HEADER_BYTES[random.below(HEADER_BYTES.len() as u64) as usize],
    };
    match random.below(8) {
        0 => bytes.truncate(at),
        1 => bytes.truncate(bytes.len() - random.below(length.min(20)) as usize),
        2 => bytes.extend(noise(random, 100)),
        3 => bytes[at] ^= 1 << random.below(8),
        4 => bytes[at] = any,
        5 => bytes.insert(at, any),
        6 => drop(bytes.drain(at..end)),
        _ => {
            let again = bytes[at..end].to_vec();
            bytes.splice(at..at, again);
        }
    }
}

fn picture(random: &mut Random, program: &Program) -> (Vec<Vec<u8>>, Vec<u8>) {
    let narrow = program.name == "coefficients";
    let most = if program.name == "fewest_pgm" { 11 } else { 24 };
    let mut measure = || 1 + random.below(most) as usize;
    let (width, height) = if narrow {
        (8, 8)
    } else {
        (measure(), measure())
    };
    let mut plane = any_plane(random, width, height);
    match random.below(8) {
        0 => plane.samples.fill(random.next() as u8),
        1 => plane
            .samples
            .iter_mut()
            .for_each(|s| *s = (*s as i8 >> 7) as u8),
        _ => {}
    }
    let loose = chance(random, if narrow { 16 } else { 2 });
    (parts(random, width, height, loose), plane.samples)
}

/// At the limits of a measure, of a header and of what `fewest_pgm` holds.
fn at_limits(random: &mut Random, program: &Program) -> Vec<u8> {
    let padded = |total: usize, head: &str, tail: &str, samples: usize| {
        let comment = total - head.len() - tail.len() - samples;
        let mut bytes = head.as_bytes().to_vec();
        bytes.resize(head.len() + comment, b'0');
        bytes.extend(tail.bytes());
        bytes.resize(total, 170);
        bytes
    };
    let off = random.below(3) as usize;
    if program.name == "fewest_pgm" && chance(random, 500) {
        return padded(131_071 + off, "P5 4096 31#", "\n 255\n", 4096 * 31);
    }
    match random.below(60) {
        0 => padded(65_535 + off + 6, "P5 3 2 #", "\n255\n", 6),
        1 => padded(65_535 + off + 6, "P5 3 ", "2 255\n", 6),
        _ => {
            let mut measure = || [1, 4094 + random.below(5) as usize][random.below(2) as usize];
            let (width, height) = (measure(), measure());
            let mut bytes = format!("P5\n{width} {height}\n255\n").into_bytes();
            if program.name != "fewest_pgm" || chance(random, 100) {
                let samples = (width * height).min(5_000) - random.below(2) as usize;
                bytes.extend((0..samples).map(|n| (n / 3) as u8));
            }
            bytes
        }
    }
}

fn any_input(random: &mut Random, program: &Program) -> Vec<u8> {
    let (mut parts, raster) = picture(random, program);
    let kind = random.below(100);
    if (25..55).contains(&kind) {
        for _ in 0..=random.below(3) {
            damage_parts(random, &mut parts);
        }
    }
    let mut bytes = parts.concat();
    bytes.extend(raster);
    match kind {
        55..=84 => {
            let one_in = if program.name == "fewest_pgm" { 200 } else { 4 };
            if chance(random, one_in) && !program.sample_in.is_empty() {
                bytes = program.sample_in.clone();
            }
            for _ in 0..=random.below(3) {
                damage_bytes(random, &mut bytes);
            }
        }
        85..=91 => bytes = noise(random, 200),
        92..=96 => {
            let (parts, raster) = picture(random, program);
            bytes.extend(parts.concat());
            bytes.extend(raster);
        }
        97.. => bytes = at_limits(random, program),
        _ => {}
    }
    bytes
}

// ---- runs

#[derive(Clone, Copy, PartialEq)]
enum Source {
    File,
    /// With the seed of the pieces' lengths.
    Pipe(u64),
    Folder,
}

struct Ways {
    source: Source,
    full: bool,
    arguments: &'static [&'static str],
}

fn any_ways(random: &mut Random) -> Ways {
    let arguments: [&[&str]; 4] = [&["--help"], &["-"], &["/dev/null", "-o", "x"], &["", "8"]];
    Ways {
        source: match random.below(256) {
            0 => Source::Folder,
            1..=24 => Source::Pipe(random.next()),
            _ => Source::File,
        },
        full: chance(random, 64),
        arguments: if chance(random, 16) {
            pick(random, &arguments)
        } else {
            &[]
        },
    }
}

struct Program {
    name: String,
    path: String,
    sample_in: Vec<u8>,
    sample_out: Vec<u8>,
}

extern "C" {
    fn kill(process: i32, signal: i32) -> i32;
}

/// The process that runs, since when, and whether it was ended.
type Watched = Arc<Mutex<Option<(i32, Instant, bool)>>>;

/// Ends a process that takes too long.
fn watch(watched: &Watched) {
    let watched = Arc::clone(watched);
    std::thread::spawn(move || loop {
        std::thread::sleep(Duration::from_millis(250));
        if let Some((process, since, ended)) = &mut *watched.lock().expect("lock") {
            if since.elapsed() > TIME_LIMIT && !*ended {
                *ended = true;
                // SAFETY: it takes two numbers.
                unsafe { kill(*process, 9) };
            }
        }
    });
}

struct Room {
    stdin: File,
    stdout: File,
    stderr: File,
    watched: Watched,
}

/// A file that has no name any more.
fn unnamed(label: &str) -> File {
    let path = std::env::temp_dir().join(format!("fuzz.{}.{label}", std::process::id()));
    let mut options = OpenOptions::new();
    let file = options.read(true).write(true).create_new(true).open(&path);
    let file = file.expect("a file of its own");
    std::fs::remove_file(&path).expect("its own file");
    file
}

fn contents(mut file: &File) -> Vec<u8> {
    let mut bytes = Vec::new();
    file.rewind().expect("a file");
    file.read_to_end(&mut bytes).expect("a file");
    bytes
}

impl Room {
    fn new() -> Self {
        let watched = Arc::default();
        watch(&watched);
        Room {
            stdin: unnamed("in"),
            stdout: unnamed("out"),
            stderr: unnamed("err"),
            watched,
        }
    }

    fn run(&self, program: &Program, input: &[u8], ways: &Ways) -> Run {
        for mut file in [&self.stdin, &self.stdout, &self.stderr] {
            file.set_len(0).expect("a file");
            file.rewind().expect("a file");
        }
        let same = |file: &File| Stdio::from(file.try_clone().expect("a file"));
        let mut command = Command::new(&program.path);
        command.args(ways.arguments).stderr(same(&self.stderr));
        command.stdout(match ways.full {
            true => File::create("/dev/full").expect("/dev/full").into(),
            false => same(&self.stdout),
        });
        let mut pieces = None;
        match ways.source {
            Source::File => {
                let mut stdin = &self.stdin;
                stdin.write_all(input).expect("a file");
                stdin.rewind().expect("a file");
                command.stdin(same(stdin));
            }
            Source::Pipe(seed) => {
                let (reader, writer) = pipe().expect("a pipe");
                command.stdin(reader);
                pieces = Some((writer, Random(seed)));
            }
            Source::Folder => {
                command.stdin(File::open(".").expect("a folder"));
            }
        }
        let mut child = command.spawn().expect("a program");
        drop(command);
        *self.watched.lock().expect("lock") = Some((child.id() as i32, Instant::now(), false));
        if let Some((mut writer, mut random)) = pieces {
            let mut rest = input;
            while !rest.is_empty() {
                let length = rest.len().min(1 + random.below(40) as usize);
                let length = if chance(&mut random, 8) {
                    rest.len()
                } else {
                    length
                };
                // The program may have ended.
                if writer.write_all(&rest[..length]).is_err() {
                    break;
                }
                rest = &rest[length..];
            }
        }
        let status = child.wait().expect("a process");
        let watched = self.watched.lock().expect("lock").take();
        let hung = status.signal() == Some(9) && watched.is_some_and(|(.., ended)| ended);
        Run {
            status: match hung {
                true => "no end in time".to_string(),
                false => status.to_string(),
            },
            read: Some((&self.stdin).seek(SeekFrom::Current(0)).expect("a file")),
            out: contents(&self.stdout),
            err: contents(&self.stderr),
        }
    }

    /// Both answers, where they differ.
    fn differs(&self, program: &Program, input: &[u8], ways: &Ways) -> Result<String, [Run; 2]> {
        let input = if ways.source == Source::Folder {
            &[]
        } else {
            input
        };
        let (must, label) = expected(program, input, ways);
        let mut is = self.run(program, input, ways);
        if must.read.is_none() {
            is.read = None;
        }
        if is == must {
            Ok(label)
        } else {
            Err([must, is])
        }
    }

    /// Shows an input that differs, made smaller.
    fn show(&self, program: &Program, mut input: Vec<u8>, ways: &Ways, mut both: [Run; 2]) {
        let start = Instant::now();
        let mut length = input.len().div_ceil(2);
        while length > 0 {
            let mut at = 0;
            while at + length <= input.len() && start.elapsed() < SMALLER {
                let mut less = input.clone();
                less.drain(at..at + length);
                match self.differs(program, &less, ways) {
                    Err(runs) => (input, both) = (less, runs),
                    Ok(_) => at += length,
                }
            }
            length /= 2;
        }
        let source = match ways.source {
            Source::File => "a file",
            Source::Pipe(_) => "a pipe",
            Source::Folder => "a folder",
        };
        println!(
            "{} on {source} \"{}\", arguments {:?}{}:",
            program.name,
            input.escape_ascii(),
            ways.arguments,
            if ways.full { ", to a full device" } else { "" }
        );
        for (label, run) in ["expected", "found"].iter().zip(both) {
            let (out, err) = (run.out.escape_ascii(), run.err.escape_ascii());
            println!(
                "  {label}: {}, out \"{out}\", err \"{err}\", read {:?}",
                run.status, run.read
            );
        }
    }
}

fn main() {
    let arguments: Vec<String> = std::env::args().skip(1).collect();
    let [bin, crates, count, seed, names @ ..] = &arguments[..] else {
        panic!("BIN CRATES COUNT SEED PROGRAM ..");
    };
    let count: u64 = count.parse().expect("how many inputs");
    let seed: u64 = seed.parse().expect("a seed");
    let room = Room::new();
    let mut all = 0;
    for name in names {
        let sample = |label| std::fs::read(format!("{crates}/{name}/{label}")).unwrap_or_default();
        let program = Program {
            name: name.clone(),
            path: format!("{bin}/{name}"),
            sample_in: sample("stdin"),
            sample_out: sample("stdout"),
        };
        let mut labels: BTreeMap<String, u64> = BTreeMap::new();
        let mut differences = 0;
        for n in 0..count {
            let mut random = Random(Random(seed ^ n << 32).next());
            let input = match n {
                0 => Vec::new(),
                1 => program.sample_in.clone(),
                _ => any_input(&mut random, &program),
            };
            let ways = any_ways(&mut random);
            match room.differs(&program, &input, &ways) {
                Ok(label) => *labels.entry(label).or_default() += 1,
                Err(both) => {
                    if differences == 0 {
                        room.show(&program, input, &ways, both);
                    }
                    differences += 1;
                }
            }
        }
        let labels: Vec<_> = labels.iter().map(|(l, n)| format!(", {n} {l}")).collect();
        println!(
            "{name}: {count} inputs, {differences} differences{}",
            labels.concat()
        );
        all += differences;
    }
    std::process::exit(i32::from(all > 0));
}
