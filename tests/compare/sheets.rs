//! Random sheets by family.

use crate::random::Random;
use crate::reference::{store_words, write, Row, Sheet};

/// What a sheet's rows are like.
#[derive(Clone, Copy, Debug, PartialEq)]
pub enum Kind {
    /// Up to seven variables, a few rows.
    Tiny,
    /// One to four variables in a row.
    Sparse,
    /// Each variable in half of the rows.
    Dense,
    /// Sums of a few rows, over and over, with the parities that follow.
    Dependent,
    /// The same with one parity turned round.
    Contradictory,
    /// x1 + x2, x2 + x3, ..: one literal gives them all.
    Chain,
    /// A line bit is a data bit and two line bits before it.
    Scrambler,
    /// Rows that differ only from column 65, 129, 257 or 449 on, of either parity.
    Prefix,
    /// More than 64, 128, 256 or 448 variables, sparse or dense.
    Wide,
    /// Dense, with more than 64 rows, the last block of 64 whole or begun.
    Tall,
    /// 0 or 512 variables, 0 or 256 rows.
    Edge,
}

pub const KINDS: [Kind; 11] = [
    Kind::Tiny,
    Kind::Sparse,
    Kind::Dense,
    Kind::Dependent,
    Kind::Contradictory,
    Kind::Chain,
    Kind::Scrambler,
    Kind::Prefix,
    Kind::Wide,
    Kind::Tall,
    Kind::Edge,
];

pub fn sheet(kind: Kind, random: &mut Random) -> Sheet {
    match kind {
        Kind::Tiny => {
            let (n, m) = (random.from(0, 7), random.from(0, 6));
            rows(n, m, |_| half(n, random))
        }
        Kind::Sparse => {
            let (n, m) = (random.from(2, 90), random.from(1, 50));
            rows(n, m, |_| sparse(n, random))
        }
        Kind::Dense => {
            let n = random.from(1, 80);
            let m = random.from(1, n.min(60));
            rows(n, m, |_| half(n, random))
        }
        Kind::Dependent => dependent(random),
        Kind::Contradictory => {
            let mut sheet = dependent(random);
            let m = sheet.rows.len();
            sheet.rows[random.below(m)].parity ^= true;
            sheet
        }
        Kind::Chain => {
            let n = random.from(2, 140);
            let mut sheet = rows(n, n - 1, |i| row(n, &[i + 1, i + 2], random.bit()));
            sheet.rows.retain(|_| !random.percent(5));
            sheet
        }
        Kind::Scrambler => scrambler(random),
        Kind::Prefix => prefix(random),
        Kind::Wide => {
            let n = random.pick(&[65, 66, 127, 128, 129, 193, 257, 448, 449, 450, 511, 512]);
            let m = random.from(1, 64);
            let thin = random.bit();
            rows(n, m, |_| if thin { sparse(n, random) } else { half(n, random) })
        }
        Kind::Tall => {
            let m = random.pick(&[65, 71, 72, 73, 127, 128, 129, 193, 255, 256]);
            let n = (m + random.from(4, 60)).min(512);
            rows(n, m, |_| half(n, random))
        }
        Kind::Edge => {
            let (n, m) = random.pick(&[(0, 0), (0, 1), (0, 256), (1, 256), (512, 0), (512, 1), (512, 256), (511, 255)]);
            let zero = random.percent(30);
            rows(n, m, |_| if zero { row(n, &[], false) } else { sparse(n, random) })
        }
    }
}

/// The sheet's bytes.
pub fn bytes(sheet: &Sheet) -> Vec<u8> {
    write(sheet.n, sheet.rows.len(), &store_words(sheet), usize::MAX).expect("a sheet within bounds")
}

/// The bytes of a sheet, damaged more often than not: cut, lengthened, a head turned to random, padding set.
pub fn damaged(sheet: &Sheet, random: &mut Random) -> Vec<u8> {
    let mut bytes = bytes(sheet);
    match random.below(8) {
        0 => bytes.truncate(random.below(bytes.len())),
        1 => {
            let more = random.from(1, 4);
            bytes.resize(bytes.len() + more, 0);
        }
        2 => bytes[random.below(3)] = random.word() as u8,
        3 => {
            let last = bytes.len() - 1;
            bytes[last] |= 1 << random.below(8);
        }
        4 => {
            // 513 variables or more, and any number of rows
            bytes[0] |= 0x80;
            bytes[1] |= 0x40;
            bytes[2] = random.word() as u8;
        }
        5 => {
            // 257 rows or more
            bytes[1] |= 0x20;
            bytes[2] |= 0x20;
        }
        6 => bytes = (0..random.below(40)).map(|_| random.word() as u8).collect(),
        _ => {}
    }
    bytes
}

fn rows(n: usize, m: usize, row: impl FnMut(usize) -> Row) -> Sheet {
    Sheet { n, rows: (0..m).map(row).collect() }
}

/// A variable named twice cancels.
fn row(n: usize, variables: &[usize], parity: bool) -> Row {
    let mut has = vec![false; n];
    for v in variables {
        has[v - 1] ^= true;
    }
    Row { has, parity }
}

fn half(n: usize, random: &mut Random) -> Row {
    Row { has: (0..n).map(|_| random.bit()).collect(), parity: random.bit() }
}

fn sparse(n: usize, random: &mut Random) -> Row {
    let count = if n == 0 { 0 } else { random.from(1, 4) };
    let variables: Vec<usize> = (0..count).map(|_| random.from(1, n)).collect();
    row(n, &variables, random.bit())
}

fn sum(a: &Row, b: &Row) -> Row {
    let has = a.has.iter().zip(&b.has).map(|(x, y)| x ^ y).collect();
    Row { has, parity: a.parity ^ b.parity }
}

fn dependent(random: &mut Random) -> Sheet {
    let n = random.pick(&[3, 5, 9, 20, 63, 64, 65, 100]);
    let thin = random.bit();
    let basis: Vec<Row> = (0..random.from(1, 8)).map(|_| if thin { sparse(n, random) } else { half(n, random) }).collect();
    let m = random.from(2, 24);
    rows(n, m, |_| basis.iter().filter(|_| random.bit()).fold(row(n, &[], false), |total, r| sum(&total, r)))
}

/// Variables 1 to `taps.1` are the register; then data and line bits take turns.
fn scrambler(random: &mut Random) -> Sheet {
    let taps = random.pick(&[(3, 4), (5, 7), (18, 23), (39, 58)]);
    let length = random.from(2, 60);
    let n = taps.1 + 2 * length;
    let line = |t: usize, tap: usize| if t >= tap { taps.1 + 2 * (t - tap) + 2 } else { t + taps.1 - tap + 1 };
    rows(n, length, |t| row(n, &[line(t, 0), taps.1 + 2 * t + 1, line(t, taps.0), line(t, taps.1)], random.percent(10)))
}

fn prefix(random: &mut Random) -> Sheet {
    let equal = random.pick(&[64, 128, 256, 448]);
    let n = (equal + random.from(2, 40)).min(512);
    let shared: Vec<Row> = (0..random.from(1, 4)).map(|_| half(n, random)).collect();
    let m = random.from(2, 12);
    rows(n, m, |_| {
        let mut row = shared[random.below(shared.len())].clone();
        for v in equal..n {
            row.has[v] = random.percent(20);
        }
        row.parity = random.bit();
        row
    })
}
