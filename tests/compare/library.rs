//! The C interface of include/parity.h, and buffers to lend to it.

use crate::random::Random;
pub use crate::reference::Header;

#[derive(Debug, PartialEq)]
#[repr(C)]
pub struct Reading {
    pub number: u64,
    pub n: u64,
    pub m: u64,
}

#[derive(Debug, PartialEq)]
#[repr(C)]
pub struct Writing {
    pub number: u64,
    pub size: u64,
}

/// What open and assume answer.
#[derive(Debug, PartialEq)]
#[repr(C)]
pub struct Answer {
    pub number: u64,
    pub count: u64,
    pub header: Header,
}

#[derive(Debug, PartialEq)]
#[repr(C)]
pub struct Explaining {
    pub number: u64,
    pub clause: u64,
    pub rows: u64,
}

pub const HELD: u64 = 100;
pub const CONFLICT: u64 = 101;
pub const UNSATISFIABLE: u64 = 102;

extern "C" {
    pub fn parity_read(sheet: *const u8, sheet_len: usize, store: *mut u64, store_len: usize) -> Reading;
    pub fn parity_write(n: usize, m: usize, store: *const u64, store_len: usize, sheet: *mut u8, sheet_len: usize) -> Writing;
    pub fn parity_open(
        old: Header,
        sheet: *const u8,
        sheet_len: usize,
        store: *mut u64,
        store_len: usize,
        work: *mut u64,
        work_len: usize,
        literals: *mut u64,
        literals_len: usize,
        rows: *mut u64,
        rows_len: usize,
    ) -> Answer;
    pub fn parity_assume(
        h: Header,
        work: *mut u64,
        work_len: usize,
        literals: *mut u64,
        literals_len: usize,
        code: u64,
    ) -> Answer;
    pub fn parity_back(h: *mut Header, work: *mut u64, work_len: usize, depth: u64) -> u64;
    pub fn parity_explain(
        h: Header,
        work: *const u64,
        work_len: usize,
        clause: *mut u64,
        clause_len: usize,
        rows: *mut u64,
        rows_len: usize,
        variable: u64,
    ) -> Explaining;
}

extern "C" {
    fn signal(number: i32, handler: extern "C" fn(i32)) -> usize;
}

/// Has SIGILL, SIGABRT, SIGBUS, SIGFPE and SIGSEGV call the handler.
pub fn on_fault(handler: extern "C" fn(i32)) {
    for number in [4, 6, 7, 8, 11] {
        unsafe { signal(number, handler) };
    }
}

/// Cells lent to the module, between fences that no call may touch. Calls are lent the first `len` of them, and the
/// cells after those are as forbidden as the fences.
#[derive(Clone, PartialEq)]
pub struct Buffer<T> {
    cells: Vec<T>,
    fence: usize,
}

pub trait Cell: Copy + PartialEq + std::fmt::Debug {
    fn random(random: &mut Random) -> Self;
}

impl Cell for u64 {
    fn random(random: &mut Random) -> u64 {
        random.word()
    }
}

impl Cell for u8 {
    fn random(random: &mut Random) -> u8 {
        random.word() as u8
    }
}

impl<T: Cell> Buffer<T> {
    pub fn new(len: usize, random: &mut Random) -> Buffer<T> {
        let fence = random.from(1, 9);
        let cells = (0..len + 2 * fence).map(|_| T::random(random)).collect();
        Buffer { cells, fence }
    }

    /// A buffer that holds exactly these cells.
    pub fn holding(cells: &[T], random: &mut Random) -> Buffer<T> {
        let mut buffer = Buffer::new(cells.len(), random);
        buffer.cells_mut().copy_from_slice(cells);
        buffer
    }

    pub fn cells(&self) -> &[T] {
        &self.cells[self.fence..self.cells.len() - self.fence]
    }

    pub fn cells_mut(&mut self) -> &mut [T] {
        let end = self.cells.len() - self.fence;
        &mut self.cells[self.fence..end]
    }

    pub fn refill(&mut self, random: &mut Random) {
        self.cells.fill_with(|| T::random(random));
    }

    /// A slice of no elements is lent as a null pointer.
    pub fn pointer(&self, len: usize) -> *const T {
        assert!(len <= self.cells().len());
        if len == 0 {
            std::ptr::null()
        } else {
            self.cells().as_ptr()
        }
    }

    pub fn pointer_mut(&mut self, len: usize) -> *mut T {
        assert!(len <= self.cells().len());
        if len == 0 {
            std::ptr::null_mut()
        } else {
            self.cells_mut().as_mut_ptr()
        }
    }

    /// Holds all cells and both fences to: the list, then what stood there before.
    pub fn expect(&self, name: &str, before: &Buffer<T>, list: &[T]) -> Result<(), String> {
        let mut wanted = before.clone();
        wanted.cells_mut()[..list.len()].copy_from_slice(list);
        self.expect_same(name, &wanted, 0)
    }

    /// Holds all cells but the first `free`, and both fences, to what stood there before.
    pub fn expect_same(&self, name: &str, before: &Buffer<T>, free: usize) -> Result<(), String> {
        let skipped = self.fence..self.fence + free;
        match (0..self.cells.len()).find(|i| !skipped.contains(i) && self.cells[*i] != before.cells[*i]) {
            None => Ok(()),
            Some(i) => Err(format!("{name}[{}] is {:?}, not {:?}", i as i64 - self.fence as i64, self.cells[i], before.cells[i])),
        }
    }
}
