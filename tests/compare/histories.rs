//! Random histories of calls. A seed decides everything: the family, the sheets, the calls, the buffers and what
//! stands in them.

use crate::foreign;
use crate::random::Random;
use crate::reference::{size_of_sheet, Header, Lent};
use crate::seat::{self, Coverage, Seat, ROOM};
use crate::sheets::{self, Kind};

type Outcome = Result<(), String>;

#[derive(Clone, Copy)]
enum Family {
    /// Calls on a state over such sheets.
    Calls(Kind),
    /// Sheets that are damaged, opened in the middle of a history.
    Damaged,
    /// Calls of which most are refused: short buffers, bad headers, bad numbers, several faults at once.
    Refused,
    /// Two states, one call here and one there, and states that move to other buffers.
    Two,
    /// All variables assumed, then back in steps.
    Deep,
    /// Reader and writer alone.
    Sheets,
    /// Headers and working buffers that do not belong together.
    Foreign,
}

const FAMILIES: [(&str, Family); 18] = [
    ("tiny", Family::Calls(Kind::Tiny)),
    ("sparse", Family::Calls(Kind::Sparse)),
    ("dense", Family::Calls(Kind::Dense)),
    ("dependent", Family::Calls(Kind::Dependent)),
    ("contradictory", Family::Calls(Kind::Contradictory)),
    ("chain", Family::Calls(Kind::Chain)),
    ("scrambler", Family::Calls(Kind::Scrambler)),
    ("prefix", Family::Calls(Kind::Prefix)),
    ("wide", Family::Calls(Kind::Wide)),
    ("tall", Family::Calls(Kind::Tall)),
    ("edge", Family::Calls(Kind::Edge)),
    ("damaged", Family::Damaged),
    ("refused", Family::Refused),
    ("two", Family::Two),
    ("deep", Family::Deep),
    ("sheets", Family::Sheets),
    ("foreign", Family::Foreign),
    ("foreign", Family::Foreign),
];

/// The family's name, and what went wrong where something did.
pub fn run(seed: u64, coverage: &mut Coverage) -> (&'static str, Outcome) {
    let (name, family) = FAMILIES[(seed % FAMILIES.len() as u64) as usize];
    let mut history = History { random: Random::new(seed), coverage, calls: 0 };
    let outcome = match family {
        Family::Calls(kind) => history.calls(kind, 8),
        Family::Damaged => history.damaged(),
        Family::Refused => history.refused(),
        Family::Two => history.two(),
        Family::Deep => history.deep(),
        Family::Sheets => history.sheets(),
        Family::Foreign => foreign::history(&mut history.random, history.coverage),
    };
    (name, outcome.map_err(|why| format!("call {}: {why}", history.calls)))
}

struct History<'a> {
    random: Random,
    coverage: &'a mut Coverage,
    calls: u64,
}

/// Room for n and m: often exactly what is needed, else anything from there to all there is.
fn room(n: usize, m: usize, random: &mut Random) -> Lent {
    let mut room = |need: usize, all: usize| if random.bit() { need } else { random.from(need, all) };
    Lent {
        store: room(9 * m, ROOM.store),
        work: room(4096, ROOM.work),
        literals: room(n, ROOM.literals),
        rows: room(m, ROOM.rows),
    }
}

/// The same with some buffers short, by one or by much.
fn short(n: usize, m: usize, random: &mut Random) -> Lent {
    let lent = room(n, m, random);
    let mut short = |need: usize, enough: usize| match need {
        0 => enough,
        _ if random.percent(60) => enough,
        _ if random.bit() => need - 1,
        _ => random.below(need),
    };
    Lent {
        store: short(9 * m, lent.store),
        work: short(4096, lent.work),
        literals: short(n, lent.literals),
        rows: short(m, lent.rows),
    }
}

/// A header that 11 refuses, whatever it was before.
fn bad_header(header: Header, random: &mut Random) -> Header {
    let mut bad = header;
    let over = |bound: u64, random: &mut Random| random.pick(&[bound + 1, bound + 1, bound + 2, 1 << 63, u64::MAX]);
    match random.below(5) {
        0 => bad.open = random.pick(&[0, 2, 3, 256, 1 << 32, 1 << 63, u64::MAX]),
        1 => bad.n = over(512, random),
        2 => bad.m = over(256, random),
        3 => bad.kept = over(header.n.min(header.m), random),
        _ => bad.depth = over(header.n, random),
    }
    bad
}

impl History<'_> {
    /// One of the calls on a seat, with `faults` percent of them at fault in one way or several.
    fn call(&mut self, seat: &mut Seat, faults: usize) -> Outcome {
        self.calls += 1;
        let random = &mut self.random;
        seat.refill(random);
        let (n, m) = (seat.header.n as usize, seat.header.m as usize);
        let fault = random.percent(faults);
        let lent = if fault && random.bit() { short(n, m, random) } else { room(n, m, random) };
        let header = if fault && random.percent(25) { bad_header(seat.header, random) } else { seat.header };
        let wild = fault && random.bit();
        match random.below(100) {
            0..=49 => {
                let code = if wild {
                    random.pick(&[0, 1, 2 * n as u64 + 2, 2 * n as u64 + 3, 1 << 63, u64::MAX])
                } else {
                    literal(seat, random)
                };
                seat.assume(header, lent, code, self.coverage)
            }
            50..=66 => {
                let depth = seat.header.depth;
                let to = if wild {
                    random.pick(&[depth + 1, depth + 2, 1 << 63, u64::MAX])
                } else {
                    random.below(depth as usize + 1) as u64
                };
                seat.back(header, lent, to, self.coverage)
            }
            _ => {
                let variable = if wild { random.pick(&[0, n as u64 + 1, 1 << 63, u64::MAX]) } else { literal(seat, random) / 2 };
                seat.explain(header, lent, variable, self.coverage)
            }
        }
    }

    /// Every variable explained, held and contradicted, or some eighty of them where there are more.
    fn sweep(&mut self, seat: &mut Seat) -> Outcome {
        self.calls += 1;
        let n = seat.header.n as usize;
        for v in 1..=n {
            if n > 80 && self.random.below(n) >= 80 {
                continue;
            }
            seat.explain(seat.header, ROOM, v as u64, self.coverage)?;
        }
        for code in seat.model.as_ref().map(|model| model.valued()).unwrap_or_default() {
            if self.random.percent(if n > 80 { 15 } else { 60 }) {
                seat.assume(seat.header, ROOM, code ^ self.random.bit() as u64, self.coverage)?;
            }
        }
        Ok(())
    }

    fn open(&mut self, seat: &mut Seat, kind: Kind) -> Outcome {
        self.calls += 1;
        let sheet = sheets::sheet(kind, &mut self.random);
        let lent = room(sheet.n, sheet.rows.len(), &mut self.random);
        seat.open(&sheets::bytes(&sheet), lent, &mut self.random, self.coverage)
    }

    fn calls(&mut self, kind: Kind, faults: usize) -> Outcome {
        let mut seat = Seat::new(&mut self.random);
        for _ in 0..self.random.from(1, 3) {
            self.open(&mut seat, kind)?;
            for _ in 0..self.random.from(4, 40) {
                self.call(&mut seat, faults)?;
                if self.random.percent(4) {
                    self.sweep(&mut seat)?;
                }
            }
            self.sweep(&mut seat)?;
        }
        Ok(())
    }

    fn damaged(&mut self) -> Outcome {
        let mut seat = Seat::new(&mut self.random);
        for _ in 0..12 {
            self.calls += 1;
            let random = &mut self.random;
            let kind = random.pick(&[Kind::Tiny, Kind::Tiny, Kind::Sparse, Kind::Dependent, Kind::Edge]);
            let sheet = sheets::sheet(kind, random);
            let (n, m) = (sheet.n, sheet.rows.len());
            let lent = if random.percent(40) { short(n, m, random) } else { room(n, m, random) };
            seat.refill(random);
            let bytes = sheets::damaged(&sheet, random);
            seat.open(&bytes, lent, random, self.coverage)?;
            for _ in 0..4 {
                self.call(&mut seat, 5)?;
            }
        }
        self.sweep(&mut seat)
    }

    fn refused(&mut self) -> Outcome {
        let kind = self.random.pick(&[Kind::Tiny, Kind::Sparse, Kind::Chain, Kind::Edge]);
        self.calls(kind, 70)
    }

    fn two(&mut self) -> Outcome {
        let mut seats = [Seat::new(&mut self.random), Seat::new(&mut self.random)];
        for _ in 0..50 {
            let which = self.random.below(2);
            match self.random.below(20) {
                _ if seats[which].header.open != 1 => {
                    let kind = self.random.pick(&[Kind::Tiny, Kind::Sparse, Kind::Chain, Kind::Prefix]);
                    self.open(&mut seats[which], kind)?;
                }
                0 => seats[which] = seats[which].moved(&mut self.random),
                1 => seats[which] = seats[1 - which].clone(),
                2 => self.sweep(&mut seats[which])?,
                _ => self.call(&mut seats[which], 5)?,
            }
        }
        self.sweep(&mut seats[0])?;
        self.sweep(&mut seats[1])
    }

    fn deep(&mut self) -> Outcome {
        let mut seat = Seat::new(&mut self.random);
        let kind = if self.random.percent(4) {
            Kind::Edge
        } else {
            self.random.pick(&[Kind::Tiny, Kind::Sparse, Kind::Chain, Kind::Scrambler])
        };
        self.open(&mut seat, kind)?;
        let n = seat.header.n as usize;
        for _ in 0..2 {
            for v in shuffled(n, &mut self.random) {
                self.calls += 1;
                let code = 2 * v as u64 + self.random.bit() as u64;
                seat.assume(seat.header, ROOM, code, self.coverage)?;
            }
            while seat.header.depth > 0 && !self.random.percent(15) {
                let to = self.random.below(seat.header.depth as usize);
                seat.back(seat.header, ROOM, to as u64, self.coverage)?;
                self.sweep(&mut seat)?;
            }
        }
        self.sweep(&mut seat)
    }

    fn sheets(&mut self) -> Outcome {
        for _ in 0..12 {
            self.calls += 1;
            let random = &mut self.random;
            let kind = random.pick(&sheets::KINDS);
            let sheet = sheets::sheet(kind, random);
            let (n, m) = (sheet.n, sheet.rows.len());
            let bytes = if random.bit() { sheets::damaged(&sheet, random) } else { sheets::bytes(&sheet) };
            let lent = if random.percent(25) { short(n, m, random) } else { room(n, m, random) };
            seat::read(&bytes, lent.store, random, self.coverage)?;
            let mut store = crate::reference::store_words(&sheet);
            if random.percent(40) {
                dirty(&mut store, n, random);
            }
            // Words after the rows are no business of the writer's.
            store.extend((0..random.below(20)).map(|_| random.word()));
            if random.percent(10) {
                store.truncate(random.below(9 * m + 1));
            }
            let n = if random.percent(8) { random.pick(&[513, 1 << 32, 1 << 63, usize::MAX]) } else { n };
            let m = if random.percent(8) { random.pick(&[257, 1 << 32, 1 << 63, usize::MAX]) } else { m };
            let size = if n <= 512 && m <= 256 { size_of_sheet(n, m) } else { 0 };
            let len = if random.percent(15) { size.saturating_sub(random.from(1, 3)) } else { size + random.below(5) };
            seat::write(n, m, &store, len, random, self.coverage)?;
        }
        Ok(())
    }
}

/// A literal worth offering: of any variable, or one that has a value. Where n is 0 it is refused.
fn literal(seat: &Seat, random: &mut Random) -> u64 {
    let n = seat.header.n as usize;
    let any = 2 * random.from(1, n.max(1)) as u64 + random.bit() as u64;
    if !random.percent(30) {
        return any;
    }
    let valued = seat.model.as_ref().map(|model| model.valued()).unwrap_or_default();
    if valued.is_empty() {
        any
    } else {
        random.pick(&valued) ^ random.bit() as u64
    }
}

/// A bit past variable n, or a parity word above 1, in one of the rows.
fn dirty(store: &mut [u64], n: usize, random: &mut Random) {
    if store.is_empty() {
        return;
    }
    let at = random.below(store.len() / 9);
    let row = &mut store[9 * at..9 * at + 9];
    if n < 512 && random.bit() {
        let v = if random.bit() { n } else { random.from(n, 511) };
        row[v / 64] |= 1 << (63 - v % 64);
    } else {
        row[8] = random.pick(&[2, 3, 1 << 63, u64::MAX]);
    }
}

fn shuffled(n: usize, random: &mut Random) -> Vec<usize> {
    let mut all: Vec<usize> = (1..=n).collect();
    for i in (1..n).rev() {
        all.swap(i, random.below(i + 1));
    }
    all
}
