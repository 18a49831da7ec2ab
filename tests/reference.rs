//! Document 01 by plain elimination: one bit to a `bool`, one row to a `Vec`, and every answer from the kept rows and
//! the taken literals themselves. Nothing here is shared with the module, no code, no table and no layout but that of
//! the row store, which document 01 gives.
//!
//!   read, write       the row sheet
//!   open              a sheet becomes a `State`, or an unsatisfiable list
//!   State             assume, back, explain
//!   session           the session program's text
//!
//! A refusal is its number of document 01. Buffers are only lengths here: the lists come back as vectors.

pub type Refusal = u64;
pub type Code = u64;

const WORK_WORDS: usize = 4096;

// ---- rows and their elimination

/// x1 + .. + xk = parity; `has[v - 1]` says that variable v is in the sum.
#[derive(Clone, Debug, PartialEq)]
pub struct Row {
    pub has: Vec<bool>,
    pub parity: bool,
}

impl Row {
    fn literal(n: usize, code: Code) -> Row {
        let mut has = vec![false; n];
        has[variable(code) - 1] = true;
        Row { has, parity: code % 2 == 0 }
    }

    fn add(&mut self, other: &Row) {
        toggle(&mut self.has, &other.has);
        self.parity ^= other.parity;
    }
}

/// A row that elimination made, and which of the given rows it is the sum of.
#[derive(Clone)]
struct Derived {
    row: Row,
    from: Vec<bool>,
    lead: usize,
}

/// Rows given one after another, fully reduced: the lead of each derived row stands in no other.
#[derive(Clone, Default)]
struct Elimination {
    derived: Vec<Derived>,
    given: usize,
}

/// What a given row is beside those before it; `Contradicts` names the rows whose sum its coefficients are.
enum Given {
    New,
    Follows,
    Contradicts(Vec<usize>),
}

impl Elimination {
    /// Rows that are sums of earlier ones take no number, so `from` counts independent rows only.
    fn give(&mut self, row: &Row) -> Given {
        let mut sum = row.clone();
        let mut from = vec![false; self.given];
        for d in &self.derived {
            if sum.has[d.lead] {
                sum.add(&d.row);
                toggle(&mut from, &d.from);
            }
        }
        let Some(lead) = sum.has.iter().position(|&b| b) else {
            return if sum.parity { Given::Contradicts(places(&from)) } else { Given::Follows };
        };
        for d in &mut self.derived {
            d.from.push(false);
        }
        from.push(true);
        self.given += 1;
        for d in &mut self.derived {
            if d.row.has[lead] {
                d.row.add(&sum);
                toggle(&mut d.from, &from);
            }
        }
        self.derived.push(Derived { row: sum, from, lead });
        Given::New
    }

    /// The derived row that says `variable = value` and nothing else.
    fn unit(&self, variable: usize) -> Option<&Derived> {
        self.derived.iter().find(|d| d.lead == variable - 1 && d.row.has.iter().filter(|&&b| b).count() == 1)
    }

    fn value(&self, variable: usize) -> Option<bool> {
        self.unit(variable).map(|d| d.row.parity)
    }
}

fn toggle(bits: &mut [bool], others: &[bool]) {
    for (bit, other) in bits.iter_mut().zip(others) {
        *bit ^= other;
    }
}

fn places(bits: &[bool]) -> Vec<usize> {
    (0..bits.len()).filter(|&i| bits[i]).collect()
}

pub fn variable(code: Code) -> usize {
    (code / 2) as usize
}

fn code_of(variable: usize, value: bool) -> Code {
    2 * variable as u64 + if value { 0 } else { 1 }
}

// ---- the row sheet

#[derive(Clone, Debug, PartialEq)]
pub struct Sheet {
    pub n: usize,
    pub rows: Vec<Row>,
}

pub fn size_of_sheet(n: usize, m: usize) -> usize {
    (19 + m * (n + 1)).div_ceil(8)
}

fn number(bits: &[bool]) -> usize {
    bits.iter().fold(0, |sum, &bit| 2 * sum + bit as usize)
}

fn bits_of(number: u64, width: usize) -> impl Iterator<Item = bool> {
    (0..width).rev().map(move |place| number >> place & 1 == 1)
}

/// n and m, the first 19 bits of a sheet of at least 3 bytes.
pub fn head(sheet: &[u8]) -> (usize, usize) {
    let bits: Vec<bool> = sheet[..3].iter().flat_map(|&byte| bits_of(byte as u64, 8)).collect();
    (number(&bits[..10]), number(&bits[10..19]))
}

/// All the reader's checks but the last, which is the store's.
fn judge_sheet(bytes: &[u8]) -> Result<Sheet, Refusal> {
    if bytes.len() < 3 {
        return Err(1);
    }
    let (n, m) = head(bytes);
    if n > 512 {
        return Err(2);
    }
    if m > 256 {
        return Err(3);
    }
    if bytes.len() < size_of_sheet(n, m) {
        return Err(1);
    }
    if bytes.len() > size_of_sheet(n, m) {
        return Err(4);
    }
    let bits: Vec<bool> = bytes.iter().flat_map(|&byte| bits_of(byte as u64, 8)).collect();
    let (body, padding) = bits[19..].split_at(m * (n + 1));
    if padding.contains(&true) {
        return Err(5);
    }
    let row = |bits: &[bool]| Row { has: bits[..n].to_vec(), parity: bits[n] };
    Ok(Sheet { n, rows: body.chunks(n + 1).map(row).collect() })
}

pub fn read(bytes: &[u8], store_len: usize) -> Result<Sheet, Refusal> {
    let sheet = judge_sheet(bytes)?;
    if store_len < 9 * sheet.rows.len() {
        return Err(6);
    }
    Ok(sheet)
}

/// The words that reading puts at the start of the row store.
pub fn store_words(sheet: &Sheet) -> Vec<u64> {
    let mut words = Vec::new();
    for row in &sheet.rows {
        let bit = |v: usize| row.has.get(v).copied().unwrap_or(false);
        for w in 0..8 {
            words.push((0..64).fold(0, |word, place| word << 1 | bit(64 * w + place) as u64));
        }
        words.push(row.parity as u64);
    }
    words
}

pub fn write(n: usize, m: usize, store: &[u64], sheet_len: usize) -> Result<Vec<u8>, Refusal> {
    if n > 512 {
        return Err(2);
    }
    if m > 256 {
        return Err(3);
    }
    if store.len() < 9 * m {
        return Err(6);
    }
    let mut bits: Vec<bool> = bits_of(n as u64, 10).chain(bits_of(m as u64, 9)).collect();
    for words in store.chunks(9).take(m) {
        let coefficients: Vec<bool> = words[..8].iter().flat_map(|&word| bits_of(word, 64)).collect();
        if coefficients[n..].contains(&true) || words[8] > 1 {
            return Err(5);
        }
        bits.extend(&coefficients[..n]);
        bits.push(words[8] == 1);
    }
    let bytes: Vec<u8> =
        bits.chunks(8).map(|byte| byte.iter().enumerate().map(|(place, &bit)| (bit as u8) << (7 - place)).sum()).collect();
    if sheet_len < bytes.len() {
        return Err(7);
    }
    Ok(bytes)
}

// ---- opening

pub enum Opening {
    Opened { state: State, implied: Vec<Code> },
    Unsatisfiable { rows: Vec<u64> },
}

/// How many elements of each buffer the caller lends.
#[derive(Clone, Copy, Debug)]
pub struct Lent {
    pub store: usize,
    pub work: usize,
    pub literals: usize,
    pub rows: usize,
}

pub const AMPLE: Lent = Lent { store: 9 * 256, work: WORK_WORDS, literals: 512, rows: 256 };

pub fn open(bytes: &[u8], lent: Lent) -> Result<(Sheet, Opening), Refusal> {
    let sheet = read(bytes, lent.store)?;
    let (n, m) = (sheet.n, sheet.rows.len());
    if lent.work < WORK_WORDS {
        return Err(6);
    }
    if lent.literals < n || lent.rows < m {
        return Err(7);
    }
    let mut state = State { n, m, kept: Vec::new(), taken: Vec::new(), now: Elimination::default() };
    for (row, number) in sheet.rows.iter().zip(1..) {
        match state.now.give(row) {
            Given::New => state.kept.push((number, row.clone())),
            Given::Follows => {}
            Given::Contradicts(sum) => {
                let mut rows: Vec<u64> = sum.into_iter().map(|i| state.kept[i].0).collect();
                rows.push(number);
                return Ok((sheet, Opening::Unsatisfiable { rows }));
            }
        }
    }
    let implied = state.valued();
    Ok((sheet, Opening::Opened { state, implied }))
}

// ---- a state and its calls

#[derive(Clone)]
pub struct State {
    pub n: usize,
    pub m: usize,
    /// The kept rows with their numbers, in order.
    pub kept: Vec<(u64, Row)>,
    /// The taken assumptions, in order.
    pub taken: Vec<Code>,
    /// The elimination of the kept rows and then of the taken literals.
    now: Elimination,
}

#[derive(Clone, Debug, PartialEq)]
pub enum Assuming {
    Taken { implied: Vec<Code> },
    Held,
    Conflict { variable: u64 },
}

#[derive(Clone, Debug, PartialEq)]
pub struct Explanation {
    pub clause: Vec<Code>,
    pub rows: Vec<u64>,
}

#[derive(Clone, Copy, Debug, PartialEq)]
#[repr(C)]
pub struct Header {
    pub open: u64,
    pub n: u64,
    pub m: u64,
    pub kept: u64,
    pub depth: u64,
}

/// Refusal 11, and the part of 6 that assume, back and explain have in common.
pub fn judge_header(h: Header, work: usize) -> Result<(), Refusal> {
    if h.open != 1 || h.n > 512 || h.m > 256 || h.kept > h.n.min(h.m) || h.depth > h.n {
        return Err(11);
    }
    if work < WORK_WORDS {
        return Err(6);
    }
    Ok(())
}

/// The checks of assume that need no state: all but 12.
pub fn judge_assume(h: Header, work: usize, literals: usize, code: Code) -> Result<(), Refusal> {
    judge_header(h, work)?;
    if (literals as u64) < h.n {
        return Err(7);
    }
    if code < 2 || code > 2 * h.n + 1 {
        return Err(8);
    }
    Ok(())
}

pub fn judge_back(h: Header, work: usize, depth: u64) -> Result<(), Refusal> {
    judge_header(h, work)?;
    if depth > h.depth {
        return Err(9);
    }
    Ok(())
}

/// The checks of explain that need no state: all but 10.
pub fn judge_explain(h: Header, work: usize, clause: usize, rows: usize, variable: u64) -> Result<(), Refusal> {
    judge_header(h, work)?;
    if (clause as u64) < h.n || (rows as u64) < h.m {
        return Err(7);
    }
    if variable < 1 || variable > h.n {
        return Err(8);
    }
    Ok(())
}

impl State {
    pub fn header(&self) -> Header {
        let (n, m) = (self.n as u64, self.m as u64);
        Header { open: 1, n, m, kept: self.kept.len() as u64, depth: self.taken.len() as u64 }
    }

    /// The literals of all variables with a value, ascending.
    pub fn valued(&self) -> Vec<Code> {
        (1..=self.n).filter_map(|v| self.now.value(v).map(|value| code_of(v, value))).collect()
    }

    pub fn assume(&mut self, lent: Lent, code: Code) -> Result<Assuming, Refusal> {
        judge_assume(self.header(), lent.work, lent.literals, code)?;
        match self.now.value(variable(code)) {
            Some(value) if code == code_of(variable(code), value) => Ok(Assuming::Held),
            Some(_) => Ok(Assuming::Conflict { variable: variable(code) as u64 }),
            None => {
                let before = self.valued();
                self.now.give(&Row::literal(self.n, code));
                self.taken.push(code);
                let mut implied = self.valued();
                implied.retain(|c| *c != code && !before.contains(c));
                Ok(Assuming::Taken { implied })
            }
        }
    }

    pub fn back(&mut self, lent: Lent, depth: u64) -> Result<(), Refusal> {
        judge_back(self.header(), lent.work, depth)?;
        self.taken.truncate(depth as usize);
        self.now = Elimination::default();
        for (_, row) in &self.kept {
            self.now.give(row);
        }
        for &code in &self.taken {
            self.now.give(&Row::literal(self.n, code));
        }
        Ok(())
    }

    /// `lent.literals` is the clause's buffer.
    pub fn explain(&self, lent: Lent, v: u64) -> Result<Explanation, Refusal> {
        judge_explain(self.header(), lent.work, lent.literals, lent.rows, v)?;
        let v = v as usize;
        if self.taken.iter().any(|&code| variable(code) == v) {
            return Err(10);
        }
        let unit = self.now.unit(v).ok_or(10u64)?;
        let (rows, cited): (Vec<usize>, Vec<usize>) = places(&unit.from).into_iter().partition(|&i| i < self.kept.len());
        let mut negations: Vec<Code> = cited.into_iter().map(|i| self.taken[i - self.kept.len()] ^ 1).collect();
        negations.sort();
        let mut clause = vec![code_of(v, unit.row.parity)];
        clause.extend(negations);
        Ok(Explanation { clause, rows: rows.into_iter().map(|i| self.kept[i].0).collect() })
    }
}

// ---- the session program

fn listed(start: String, list: &[u64]) -> String {
    list.iter().fold(start, |text, number| format!("{text} {number}"))
}

/// What the session program prints for this input.
pub fn session(input: &[u8]) -> String {
    let input = &input[..input.len().min(65_536)];
    let end = if input.len() < 3 {
        input.len()
    } else {
        let (n, m) = head(input);
        input.len().min(size_of_sheet(n, m))
    };
    let (bytes, commands) = input.split_at(end);
    let (mut state, mut text) = match open(bytes, AMPLE) {
        Err(refusal) => return format!("refused {refusal}\n"),
        Ok((_, Opening::Unsatisfiable { rows })) => return listed("unsat".to_string(), &rows) + "\n",
        Ok((_, Opening::Opened { state, implied })) => {
            let start = format!("open {} implied {}", state.kept.len(), implied.len());
            (state, listed(start, &implied) + "\n")
        }
    };
    for command in commands.chunks_exact(2) {
        let number = (command[0] as u64 % 64) * 256 + command[1] as u64;
        let answer = match command[0] / 64 {
            0 => break,
            1 => state.assume(AMPLE, number).map(|answer| match answer {
                Assuming::Taken { implied } => listed(format!("implied {}", implied.len()), &implied),
                Assuming::Held => "held".to_string(),
                Assuming::Conflict { variable } => format!("conflict {variable}"),
            }),
            2 => state.back(AMPLE, number).map(|()| format!("back {number}")),
            _ => state.explain(AMPLE, number).map(|why| {
                let clause = listed(format!("explain {number} clause"), &why.clause);
                listed(clause + " rows", &why.rows)
            }),
        };
        text += &answer.unwrap_or_else(|refusal| format!("refused {refusal}"));
        text.push('\n');
    }
    text
}
