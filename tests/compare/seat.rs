//! One state of the module beside the reference's, and each call of the one held to the answer of the other: the
//! returned numbers, the header, and every cell of every buffer lent, but for the first 4,096 working words after a call
//! that may change them: an opening or a back that is not refused, a literal taken.

use crate::library::*;
use crate::random::Random;
use crate::reference::{self, judge_header, Assuming, Lent, Opening, State};
use std::collections::BTreeMap;

/// How often each call gave each number; `foreign` calls are those of the family of that name.
#[derive(Default)]
pub struct Coverage(BTreeMap<(&'static str, u64), u64>);

impl Coverage {
    pub fn note(&mut self, call: &'static str, number: u64) {
        *self.0.entry((call, number)).or_default() += 1;
    }

    /// Every answer that document 01 gives a call has come up, on a state of the module and on a foreign one; 12 is for
    /// foreign ones only. At depth n nothing more is taken, and 12 says so.
    pub fn complete(&self) -> Result<(), String> {
        let all: [(&str, &[u64]); 10] = [
            ("read", &[0, 1, 2, 3, 4, 5, 6]),
            ("write", &[0, 2, 3, 5, 6, 7]),
            ("open", &[0, UNSATISFIABLE, 1, 2, 3, 4, 5, 6, 7]),
            ("assume", &[0, HELD, CONFLICT, 6, 7, 8, 11]),
            ("back", &[0, 6, 9, 11]),
            ("explain", &[0, 6, 7, 8, 10, 11]),
            ("foreign assume", &[0, HELD, CONFLICT, 6, 7, 8, 11, 12]),
            ("foreign assume at depth n", &[HELD, CONFLICT, 12]),
            ("foreign back", &[0, 6, 9, 11]),
            ("foreign explain", &[0, 6, 7, 8, 10, 11]),
        ];
        for (call, numbers) in all {
            if let Some(number) = numbers.iter().find(|number| !self.0.contains_key(&(call, **number))) {
                return Err(format!("no {call} answered {number}"));
            }
        }
        Ok(())
    }
}

const CLOSED: Header = Header { open: 0, n: 0, m: 0, kept: 0, depth: 0 };

/// The most that a seat can lend; always a little more than any call needs.
pub const ROOM: Lent = Lent { store: 9 * 256 + 11, work: 4096 + 40, literals: 512 + 7, rows: 256 + 5 };

#[derive(Clone)]
pub struct Seat {
    pub header: Header,
    /// `None` where the header is not open.
    pub model: Option<State>,
    store: Buffer<u64>,
    work: Buffer<u64>,
    literals: Buffer<u64>,
    rows: Buffer<u64>,
}

pub fn equal<T: PartialEq + std::fmt::Debug>(what: &str, got: T, wanted: T) -> Result<(), String> {
    if got == wanted {
        Ok(())
    } else {
        Err(format!("{what} gave {got:?}, not {wanted:?}"))
    }
}

impl Seat {
    pub fn new(random: &mut Random) -> Seat {
        Seat {
            header: CLOSED,
            model: None,
            store: Buffer::new(ROOM.store, random),
            work: Buffer::new(ROOM.work, random),
            literals: Buffer::new(ROOM.literals, random),
            rows: Buffer::new(ROOM.rows, random),
        }
    }

    /// The same state elsewhere: its header and the first 4,096 working words, everything else strange.
    pub fn moved(&self, random: &mut Random) -> Seat {
        let mut seat = Seat { header: self.header, model: self.model.clone(), ..Seat::new(random) };
        seat.work.cells_mut()[..4096].copy_from_slice(&self.work.cells()[..4096]);
        seat
    }

    /// New patterns in all answer buffers.
    pub fn refill(&mut self, random: &mut Random) {
        self.store.refill(random);
        self.literals.refill(random);
        self.rows.refill(random);
    }

    /// Holds the answer buffers to the lists given, and the working buffer to what it was but for its first `free` words.
    fn expect(&self, before: &Seat, literals: &[u64], rows: &[u64], free: usize) -> Result<(), String> {
        self.literals.expect("literals", &before.literals, literals)?;
        self.rows.expect("rows", &before.rows, rows)?;
        self.work.expect_same("work", &before.work, free)
    }

    pub fn open(&mut self, sheet: &[u8], lent: Lent, random: &mut Random, coverage: &mut Coverage) -> Result<(), String> {
        let before = self.clone();
        let sheet = Buffer::holding(sheet, random);
        let sheet_before = sheet.clone();
        let answer = unsafe {
            parity_open(
                self.header,
                sheet.pointer(sheet.cells().len()),
                sheet.cells().len(),
                self.store.pointer_mut(lent.store),
                lent.store,
                self.work.pointer_mut(lent.work),
                lent.work,
                self.literals.pointer_mut(lent.literals),
                lent.literals,
                self.rows.pointer_mut(lent.rows),
                lent.rows,
            )
        };
        coverage.note("open", answer.number);
        sheet.expect_same("sheet", &sheet_before, 0)?;
        match reference::open(sheet.cells(), lent) {
            Err(number) => {
                equal("open", answer, Answer { number, count: 0, header: before.header })?;
                self.store.expect("store", &before.store, &[])?;
                self.expect(&before, &[], &[], 0)
            }
            Ok((read, Opening::Unsatisfiable { rows })) => {
                (self.header, self.model) = (CLOSED, None);
                equal("open", answer, Answer { number: UNSATISFIABLE, count: rows.len() as u64, header: CLOSED })?;
                self.store.expect("store", &before.store, &reference::store_words(&read))?;
                self.expect(&before, &[], &rows, 4096)
            }
            Ok((read, Opening::Opened { state, implied })) => {
                self.header = state.header();
                self.model = Some(state);
                equal("open", answer, Answer { number: 0, count: implied.len() as u64, header: self.header })?;
                self.store.expect("store", &before.store, &reference::store_words(&read))?;
                self.expect(&before, &implied, &[], 4096)
            }
        }
    }

    /// The reference's answer; a header that is not the state's own must be one that 11 refuses.
    fn model_for<T>(&mut self, header: Header, lent: Lent, call: impl FnOnce(&mut State) -> Result<T, u64>) -> Result<T, u64> {
        match &mut self.model {
            Some(model) if header == self.header => call(model),
            _ => Err(judge_header(header, lent.work).expect_err("a header that is refused")),
        }
    }

    pub fn assume(&mut self, header: Header, lent: Lent, code: u64, coverage: &mut Coverage) -> Result<(), String> {
        let before = self.clone();
        let answer = unsafe {
            let (work, literals) = (self.work.pointer_mut(lent.work), self.literals.pointer_mut(lent.literals));
            parity_assume(header, work, lent.work, literals, lent.literals, code)
        };
        coverage.note("assume", answer.number);
        let what = format!("assume {code}");
        let plain = |number, count| Answer { number, count, header };
        let (wanted, implied, free) = match self.model_for(header, lent, |model| model.assume(lent, code)) {
            Err(number) => (plain(number, 0), vec![], 0),
            Ok(Assuming::Held) => (plain(HELD, 0), vec![], 0),
            Ok(Assuming::Conflict { variable }) => (plain(CONFLICT, variable), vec![], 0),
            Ok(Assuming::Taken { implied }) => {
                self.header.depth += 1;
                (Answer { number: 0, count: implied.len() as u64, header: self.header }, implied, 4096)
            }
        };
        equal(&what, answer, wanted)?;
        self.store.expect("store", &before.store, &[])?;
        self.expect(&before, &implied, &[], free)
    }

    pub fn back(&mut self, header: Header, lent: Lent, depth: u64, coverage: &mut Coverage) -> Result<(), String> {
        let before = self.clone();
        let mut lowered = header;
        let number = unsafe { parity_back(&mut lowered, self.work.pointer_mut(lent.work), lent.work, depth) };
        coverage.note("back", number);
        let (wanted, free) = match self.model_for(header, lent, |model| model.back(lent, depth)) {
            Err(refusal) => ((refusal, header), 0),
            Ok(()) => {
                self.header.depth = depth;
                ((0, self.header), 4096)
            }
        };
        equal(&format!("back {depth}"), (number, lowered), wanted)?;
        self.expect(&before, &[], &[], free)
    }

    pub fn explain(&mut self, header: Header, lent: Lent, variable: u64, coverage: &mut Coverage) -> Result<(), String> {
        let before = self.clone();
        let answer = unsafe {
            let (clause, rows) = (self.literals.pointer_mut(lent.literals), self.rows.pointer_mut(lent.rows));
            parity_explain(header, self.work.pointer(lent.work), lent.work, clause, lent.literals, rows, lent.rows, variable)
        };
        coverage.note("explain", answer.number);
        let what = format!("explain {variable}");
        match self.model_for(header, lent, |model| model.explain(lent, variable)) {
            Err(number) => {
                equal(&what, answer, Explaining { number, clause: 0, rows: 0 })?;
                self.expect(&before, &[], &[], 0)
            }
            Ok(why) => {
                let (clause, rows) = (why.clause.len() as u64, why.rows.len() as u64);
                equal(&what, answer, Explaining { number: 0, clause, rows })?;
                self.expect(&before, &why.clause, &why.rows, 0)
            }
        }
    }

    /// The calls that a session input asks for, with ample buffers.
    pub fn follow(&mut self, input: &[u8], random: &mut Random, coverage: &mut Coverage) -> Result<(), String> {
        let (sheet, commands) = input.split_at(crate::session::sheet_part(input));
        self.open(sheet, ROOM, random, coverage)?;
        for command in commands.chunks_exact(2) {
            let number = (command[0] as u64 % 64) * 256 + command[1] as u64;
            match command[0] / 64 {
                0 => break,
                1 => self.assume(self.header, ROOM, number, coverage)?,
                2 => self.back(self.header, ROOM, number, coverage)?,
                _ => self.explain(self.header, ROOM, number, coverage)?,
            }
        }
        Ok(())
    }
}

// ---- sheets alone: no state

pub fn read(sheet: &[u8], store_len: usize, random: &mut Random, coverage: &mut Coverage) -> Result<(), String> {
    let sheet = Buffer::holding(sheet, random);
    let mut store = Buffer::new(ROOM.store, random);
    let before = (sheet.clone(), store.clone());
    let len = sheet.cells().len();
    let answer = unsafe { parity_read(sheet.pointer(len), len, store.pointer_mut(store_len), store_len) };
    coverage.note("read", answer.number);
    sheet.expect_same("sheet", &before.0, 0)?;
    let (wanted, words) = match reference::read(sheet.cells(), store_len) {
        Err(number) => (Reading { number, n: 0, m: 0 }, vec![]),
        Ok(read) => {
            let (n, m) = (read.n as u64, read.rows.len() as u64);
            (Reading { number: 0, n, m }, reference::store_words(&read))
        }
    };
    equal("read", answer, wanted)?;
    store.expect("store", &before.1, &words)
}

pub fn write(n: usize, m: usize, store: &[u64], len: usize, random: &mut Random, coverage: &mut Coverage) -> Result<(), String> {
    let store = Buffer::holding(store, random);
    let mut sheet: Buffer<u8> = Buffer::new(len.max(16_419) + 9, random);
    let before = (store.clone(), sheet.clone());
    let words = store.cells().len();
    let answer = unsafe { parity_write(n, m, store.pointer(words), words, sheet.pointer_mut(len), len) };
    coverage.note("write", answer.number);
    store.expect_same("store", &before.0, 0)?;
    let (wanted, bytes) = match reference::write(n, m, store.cells(), len) {
        Err(number) => (Writing { number, size: 0 }, vec![]),
        Ok(bytes) => (Writing { number: 0, size: bytes.len() as u64 }, bytes),
    };
    equal(&format!("write {n} {m}"), answer, wanted)?;
    sheet.expect("sheet", &before.1, &bytes)
}
