//! The session program beside the reference's text.

use crate::random::Random;
use crate::reference;
use crate::sheets;
use std::io::Write;
use std::process::{Command, Stdio};

/// How many bytes of a session input are the sheet.
pub fn sheet_part(input: &[u8]) -> usize {
    if input.len() < 3 {
        return input.len();
    }
    let (n, m) = reference::head(input);
    input.len().min(reference::size_of_sheet(n, m))
}

/// Runs the program; the input comes through a pipe in two pieces, the first of them `first` bytes long.
pub fn run(program: &str, input: &[u8], first: usize) -> Result<String, String> {
    let mut child = Command::new(program)
        .stdin(Stdio::piped())
        .stdout(Stdio::piped())
        .spawn()
        .map_err(|error| format!("{program}: {error}"))?;
    let mut pipe = child.stdin.take().expect("a pipe");
    let pieces = (input[..first].to_vec(), input[first..].to_vec());
    // The program may end before it has read all: a broken pipe is no fault.
    let feeder = std::thread::spawn(move || {
        let _ = pipe.write_all(&pieces.0).and_then(|()| pipe.flush());
        std::thread::yield_now();
        let _ = pipe.write_all(&pieces.1);
    });
    let output = child.wait_with_output().map_err(|error| error.to_string())?;
    feeder.join().expect("the feeding thread");
    if !output.status.success() {
        return Err(format!("{program} ended with {}", output.status));
    }
    String::from_utf8(output.stdout).map_err(|_| "output is no text".to_string())
}

/// The first line in which two texts differ.
pub fn same_text(got: &str, wanted: &str) -> Result<(), String> {
    if got == wanted {
        return Ok(());
    }
    let differs = |(_, (g, w)): &(usize, (&str, &str))| g != w;
    let lines = got.split_inclusive('\n').chain([""]).zip(wanted.split_inclusive('\n').chain([""]));
    match lines.enumerate().find(differs) {
        Some((at, (g, w))) => Err(format!("line {} is {g:?}, not {w:?}", at + 1)),
        None => Err("one text goes on after the other's end".to_string()),
    }
}

pub fn random_input(program: &str, seed: u64) -> Result<(), String> {
    let random = &mut Random::new(seed ^ 0x5E55_0000);
    let input = input(random);
    let first = random.below(input.len() + 1);
    same_text(&run(program, &input, first)?, &reference::session(&input))
}

/// A sheet, damaged now and then, and commands that mostly make sense for it; sometimes an end in the middle, an odd
/// byte at the end, or more than 65,536 bytes.
fn input(random: &mut Random) -> Vec<u8> {
    let kind = random.pick(&sheets::KINDS);
    let sheet = sheets::sheet(kind, random);
    let mut input = if random.percent(15) { sheets::damaged(&sheet, random) } else { sheets::bytes(&sheet) };
    let commands = if random.percent(2) { 33_000 } else { random.below(60) };
    for _ in 0..commands {
        let (n, wild) = (sheet.n.max(1), random.percent(4));
        let number =
            |low: usize, high: usize, random: &mut Random| if wild { random.below(1 << 14) } else { random.from(low, high) };
        let (command, number) = match random.below(100) {
            0..=54 => (1, number(2, 2 * n + 1, random)),
            55..=66 => (2, number(0, 6, random)),
            67..=98 => (3, number(1, n, random)),
            _ if commands < 100 => (0, random.below(1 << 14)),
            _ => (2, 0),
        };
        input.extend(((command << 14 | number) as u16).to_be_bytes());
    }
    if random.percent(20) {
        input.push(random.word() as u8);
    }
    input
}
