//! The documents' vectors, as inputs of the session program.
//!
//! An input is hexadecimal pieces; `B` is system B of document 01, `K*` repeats the next piece K times. In an output
//! ` / ` stands between lines and ` xK` at the end of a line repeats it.

use crate::random::Random;
use crate::reference;
use crate::seat::{Coverage, Seat};
use crate::session::{run, same_text};

const VECTORS: &[(&str, &str)] = &[
    // document 01: the session program
    (
        "B 4002 C003 4006 8000 4008 0000",
        "open 3 implied 0 / implied 1 7 / explain 3 clause 7 3 rows 1 3 / conflict 3 / back 0 / implied 0",
    ),
    // document 01: settled examples
    ("00C05EC0 C001", "open 2 implied 1 2 / explain 1 clause 2 rows 1 2"),
    ("01407CDAB8 C005", "open 3 implied 1 10 / explain 5 clause 10 rows 1 2 3"),
    ("00805F00", "unsat 1 2"),
    (
        "B 4002 4008 C006 400A C002 4006 8001 4005 400B C006",
        "open 3 implied 0 / implied 1 7 / implied 1 12 / explain 6 clause 12 3 9 rows 1 / implied 1 5 \
         / explain 2 clause 5 9 11 rows 2 / conflict 3 / back 1 / implied 0 / implied 2 9 13 \
         / explain 6 clause 13 3 4 10 rows 1 2",
    ),
    ("000000", "open 0 implied 0"),
    ("000020", "open 0 implied 0"),
    ("000030", "unsat 1"),
    ("0000", "refused 1"),
    ("B 8000 8001 4001", "open 3 implied 0 / back 0 / refused 9 / refused 8"),
    // heads and sizes
    ("", "refused 1"),
    ("FFFF", "refused 1"),
    ("FFFFFF", "refused 2"),
    ("804000", "refused 2"),
    ("806020", "refused 2"),
    ("002020", "refused 3"),
    ("002000", "refused 1"),
    ("002000 32* 00", "open 0 implied 0"),
    ("002000 31* 00 20", "unsat 256"),
    ("002000 31* 00 10", "refused 5"),
    ("802000 16416* 00", "open 0 implied 0"),
    ("802000 16415* 00", "refused 1"),
    ("000010", "refused 5"),
    ("000028", "refused 5"),
    // no variables, no rows
    ("000020 4002 C001 8000 8001", "open 0 implied 0 / refused 8 x2 / back 0 / refused 9"),
    ("000030 4002", "unsat 1"),
    ("800000 4401 4402 4001 4000 C000 C200 C201", "open 0 implied 0 / implied 0 / refused 8 x4 / refused 10 / refused 8"),
    ("000000 32767* 4002", "open 0 implied 0 / refused 8 x32766"),
    // small systems
    (
        "01003F 4003 4005 4007 C004 4009 C001",
        "open 1 implied 0 / implied 0 x2 / implied 1 8 / explain 4 clause 8 2 4 6 rows 1 / conflict 4 / refused 10",
    ),
    (
        "00C05EC0 C001 4002 4003 C001 8001 C002 4004 C003",
        "open 2 implied 1 2 / explain 1 clause 2 rows 1 2 / held / conflict 1 / explain 1 clause 2 rows 1 2 \
         / refused 9 / refused 10 / implied 1 6 / explain 3 clause 6 5 rows 2",
    ),
    ("01407AB478 C001", "open 3 implied 1 3 / explain 1 clause 3 rows 1 2 3"),
    ("00C0BBA0D6 4002 C003", "open 2 implied 0 / implied 2 5 7 / explain 3 clause 7 3 rows 1 4"),
    ("00C0BAC142", "unsat 1 2 4"),
    // two rows equal in variables 1 to 64
    (
        "10805FFFFFFFFFFFFFFFF7FFFFFFFFFFFFFFFD00 4082 C042",
        "open 2 implied 0 / implied 1 133 / explain 66 clause 133 131 rows 1 2",
    ),
    // ends, conflicts, going back
    ("B 3FFF 4002", "open 3 implied 0"),
    ("B 4002 80", "open 3 implied 0 / implied 1 7"),
    ("B 4002 4003 C001 4002", "open 3 implied 0 / implied 1 7 / conflict 1 / refused 10 / held"),
    (
        "B 400A 4002 C003 8001 C003",
        "open 3 implied 0 / implied 0 / implied 1 7 / explain 3 clause 7 3 rows 1 3 / back 1 / refused 10",
    ),
    ("B 7FFF BFFF FFFF", "open 3 implied 0 / refused 8 / refused 9 / refused 8"),
];

pub struct Vector {
    text: &'static str,
    input: Vec<u8>,
    output: String,
}

pub fn all() -> impl Iterator<Item = Vector> {
    VECTORS.iter().map(|(text, lines)| Vector { text, input: input(text), output: output(lines) })
}

fn input(text: &str) -> Vec<u8> {
    let mut bytes = Vec::new();
    let mut times = 1;
    for piece in text.split_whitespace() {
        if let Some(count) = piece.strip_suffix('*') {
            times = count.parse().expect("a count");
            continue;
        }
        let digits = if piece == "B" { "018072D61A" } else { piece };
        let piece: Vec<u8> =
            (0..digits.len()).step_by(2).map(|i| u8::from_str_radix(&digits[i..i + 2], 16).expect("hex")).collect();
        bytes.extend(piece.repeat(times));
        times = 1;
    }
    bytes
}

fn output(lines: &str) -> String {
    let line = |line: &str| match line.trim().rsplit_once(" x") {
        Some((line, times)) => format!("{line}\n").repeat(times.parse().expect("a count")),
        None => format!("{}\n", line.trim()),
    };
    lines.split(" / ").map(line).collect()
}

impl Vector {
    pub fn name(&self) -> String {
        format!("vector {:?}", self.text)
    }

    /// The reference, the module beside it, and the session program where there is one.
    pub fn check(&self, session: Option<&str>, coverage: &mut Coverage) -> Result<(), String> {
        same_text(&reference::session(&self.input), &self.output).map_err(|why| format!("reference: {why}"))?;
        let random = &mut Random::new(self.input.len() as u64);
        Seat::new(random).follow(&self.input, random, coverage)?;
        match session {
            Some(program) => same_text(&run(program, &self.input, self.input.len() / 2)?, &self.output),
            None => Ok(()),
        }
    }
}
