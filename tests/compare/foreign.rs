//! Headers and working buffers that do not belong together. What stays promised for them: refusals 11, 6, 7, 8 and 9
//! in their order; a refusal, held and conflict change nothing; of a header only the depth moves, up by one and no
//! further than n where a literal is taken, back to where it is asked; lists are no longer than n and m, and what lies
//! past them and past the 4,096 words is untouched.

use crate::library::*;
use crate::random::Random;
use crate::reference::{judge_assume, judge_back, judge_explain, Lent};
use crate::seat::{equal, Coverage, ROOM};
use crate::sheets;

type Outcome = Result<(), String>;

struct Stranger {
    header: Header,
    work: Buffer<u64>,
    literals: Buffer<u64>,
    rows: Buffer<u64>,
    /// The literals that were listed as implied while the buffer was made.
    implied: Vec<u64>,
}

pub fn history(random: &mut Random, coverage: &mut Coverage) -> Outcome {
    let mut stranger = stranger(random);
    for _ in 0..random.from(5, 40) {
        stranger.literals.refill(random);
        stranger.rows.refill(random);
        let mut len = |all: usize| if random.percent(90) { all } else { random.below(all) };
        let lent = Lent { store: 0, work: len(ROOM.work), literals: len(ROOM.literals), rows: len(ROOM.rows) };
        let n = stranger.header.n.min(600) as usize;
        if random.percent(20) {
            stranger.forget(random);
        }
        let code = match stranger.implied.is_empty() || random.percent(70) {
            true => random.below(2 * n + 4) as u64,
            false => random.pick(&stranger.implied) ^ random.bit() as u64,
        };
        match random.below(10) {
            0..=4 => stranger.assume(lent, code, coverage)?,
            5..=6 => stranger.back(lent, random.below(stranger.header.depth.min(600) as usize + 2) as u64, coverage)?,
            _ => stranger.explain(lent, code / 2, coverage)?,
        }
        if random.percent(10) {
            for variable in 1..=n {
                stranger.explain(ROOM, variable as u64, coverage)?;
            }
            stranger.header = header(random);
        }
    }
    Ok(())
}

/// Within the bounds of refusal 11, often at them, and now and then past one.
fn header(random: &mut Random) -> Header {
    let mut up_to = |bound: usize| match random.below(4) {
        0 => bound,
        1 => random.below(bound.min(8) + 1),
        _ => random.below(bound + 1),
    };
    let (n, m) = (up_to(512), up_to(256));
    let (kept, depth) = (up_to(n.min(m)), up_to(n));
    let over = |chance: usize, random: &mut Random| random.percent(chance) as u64;
    Header {
        open: 1,
        n: n as u64 + over(2, random),
        m: m as u64 + over(2, random),
        kept: kept as u64 + over(2, random),
        depth: depth as u64 + over(2, random),
    }
}

/// The same header with one of its bounds lower, and the others within it.
fn lowered(mut header: Header, random: &mut Random) -> Header {
    let below = |number: u64, random: &mut Random| random.below(number as usize + 1) as u64;
    match random.below(3) {
        0 => header.n = below(header.n, random),
        1 => header.m = below(header.m, random),
        _ => header.kept = below(header.kept, random),
    }
    header.kept = header.kept.min(header.n).min(header.m);
    header.depth = header.depth.min(header.n);
    header
}

/// A buffer of noise, or one that the module made for some sheet, whole or damaged; and a header, its own or not.
fn stranger(random: &mut Random) -> Stranger {
    let (mut work, mut literals, mut rows) =
        (Buffer::new(ROOM.work, random), Buffer::new(ROOM.literals, random), Buffer::new(ROOM.rows, random));
    let (mut header, mut implied) = (header(random), vec![]);
    match random.below(6) {
        0 => {}
        1 => work.cells_mut()[..4096].fill(random.pick(&[0, u64::MAX, 1, 2, 1 << 63])),
        2 => work.cells_mut()[..4096].iter_mut().for_each(|word| *word = random.below(1100) as u64),
        _ => {
            let kind = random.pick(&sheets::KINDS);
            let sheet = sheets::bytes(&sheets::sheet(kind, random));
            let mut store = Buffer::new(ROOM.store, random);
            let opened = unsafe {
                parity_open(
                    header,
                    sheet.as_ptr(),
                    sheet.len(),
                    store.pointer_mut(ROOM.store),
                    ROOM.store,
                    work.pointer_mut(ROOM.work),
                    ROOM.work,
                    literals.pointer_mut(ROOM.literals),
                    ROOM.literals,
                    rows.pointer_mut(ROOM.rows),
                    ROOM.rows,
                )
            };
            let mut made = opened.header;
            if opened.number == 0 {
                implied.extend(&literals.cells()[..opened.count as usize]);
            }
            for _ in 0..random.below(12) {
                let code = random.from(2, 2 * made.n.max(1) as usize + 1) as u64;
                let lists = literals.pointer_mut(ROOM.literals);
                let taken = unsafe { parity_assume(made, work.pointer_mut(ROOM.work), ROOM.work, lists, ROOM.literals, code) };
                if taken.number == 0 {
                    implied.extend(&literals.cells()[..taken.count as usize]);
                }
                made = taken.header;
            }
            if random.percent(80) && opened.number == 0 {
                header = if random.bit() { lowered(made, random) } else { made };
            }
            let reach = random.pick(&[40, 400, 4096]);
            for _ in 0..random.pick(&[0, 0, 1, 4, 60, 2000]) {
                work.cells_mut()[random.below(reach)] ^= 1 << random.below(64);
            }
        }
    }
    Stranger { header, work, literals, rows, implied }
}

impl Stranger {
    /// Goes back to where the state is, with fewer rows kept: on a buffer that the module made, what the other rows gave
    /// has no value then, is basic, and finds no variable to exchange.
    fn forget(&mut self, random: &mut Random) {
        let mut fewer = Header { kept: random.below(self.header.kept as usize + 1) as u64, ..self.header };
        unsafe { parity_back(&mut fewer, self.work.pointer_mut(ROOM.work), ROOM.work, fewer.depth) };
    }

    fn assume(&mut self, lent: Lent, code: u64, coverage: &mut Coverage) -> Outcome {
        let (work, literals) = (self.work.clone(), self.literals.clone());
        let answer = unsafe {
            let lists = self.literals.pointer_mut(lent.literals);
            parity_assume(self.header, self.work.pointer_mut(lent.work), lent.work, lists, lent.literals, code)
        };
        let full = self.header.depth == self.header.n;
        coverage.note(if full { "foreign assume at depth n" } else { "foreign assume" }, answer.number);
        let unchanged = |number, count| Answer { number, count, header: self.header };
        let wanted = match (judge_assume(self.header, lent.work, lent.literals, code), answer.number) {
            (Err(number), _) => unchanged(number, 0),
            (Ok(()), 0) => return self.taken(answer, work, literals),
            (Ok(()), CONFLICT) => unchanged(CONFLICT, code / 2),
            (Ok(()), HELD) => unchanged(HELD, 0),
            (Ok(()), _) => unchanged(12, 0),
        };
        equal("assume on a foreign state", answer, wanted)?;
        self.literals.expect_same("literals", &literals, 0)?;
        self.work.expect_same("work", &work, 0)
    }

    fn taken(&mut self, answer: Answer, work: Buffer<u64>, literals: Buffer<u64>) -> Outcome {
        self.header.depth += 1;
        equal("the header of a literal taken on a foreign state", answer.header, self.header)?;
        if self.header.depth > self.header.n || answer.count > self.header.n {
            return Err(format!("taken on a foreign state: {answer:?}"));
        }
        self.literals.expect_same("literals", &literals, answer.count as usize)?;
        self.work.expect_same("work", &work, 4096)
    }

    fn back(&mut self, lent: Lent, depth: u64, coverage: &mut Coverage) -> Outcome {
        let (mut lowered, work) = (self.header, self.work.clone());
        let number = unsafe { parity_back(&mut lowered, self.work.pointer_mut(lent.work), lent.work, depth) };
        coverage.note("foreign back", number);
        match judge_back(self.header, lent.work, depth) {
            Err(refusal) => {
                equal("back on a foreign state", (number, lowered), (refusal, self.header))?;
                self.work.expect_same("work", &work, 0)
            }
            Ok(()) => {
                self.header.depth = depth;
                equal("back on a foreign state", (number, lowered), (0, self.header))?;
                self.work.expect_same("work", &work, 4096)
            }
        }
    }

    fn explain(&mut self, lent: Lent, variable: u64, coverage: &mut Coverage) -> Outcome {
        let (work, literals, rows) = (self.work.clone(), self.literals.clone(), self.rows.clone());
        let answer = unsafe {
            let (clause, list) = (self.literals.pointer_mut(lent.literals), self.rows.pointer_mut(lent.rows));
            parity_explain(self.header, self.work.pointer(lent.work), lent.work, clause, lent.literals, list, lent.rows, variable)
        };
        coverage.note("foreign explain", answer.number);
        self.work.expect_same("work", &work, 0)?;
        let refusal = match (judge_explain(self.header, lent.work, lent.literals, lent.rows, variable), answer.number) {
            (Ok(()), 0) if answer.clause <= self.header.n && answer.rows <= self.header.m => {
                self.literals.expect_same("clause", &literals, answer.clause as usize)?;
                return self.rows.expect_same("rows", &rows, answer.rows as usize);
            }
            (Ok(()), _) => 10,
            (Err(number), _) => number,
        };
        equal("explain on a foreign state", answer, Explaining { number: refusal, clause: 0, rows: 0 })?;
        self.literals.expect_same("clause", &literals, 0)?;
        self.rows.expect_same("rows", &rows, 0)
    }
}
