//! The interface of the libraries for C, as include/fotsgari.h and include/fotsgari_registers.h
//! declare it. All unsafe code is here.

use std::marker::PhantomData;

pub const REPLICAS: usize = 16;
pub const SLOTS: usize = 64;

#[repr(C)]
#[derive(Clone, Copy, Debug, Default, PartialEq, Eq)]
pub struct Call {
    pub number: u64,
    pub arguments: [u64; 5],
}

#[repr(C)]
#[derive(Clone, Copy, Debug, Default, PartialEq, Eq, Hash)]
pub struct Record {
    pub kind: u8,
    pub signer: u8,
    pub view: u8,
    pub last: u8,
    pub slot: u8,
    pub verdict: u8,
    pub word: u64,
    pub result: u64,
}

#[repr(C)]
#[derive(Clone, Copy, Debug, Default, PartialEq, Eq)]
pub struct Outcome {
    pub kind: u8,
    pub ground: u8,
    pub witnesses: [u8; REPLICAS],
    pub place: u64,
}

#[repr(C)]
#[derive(Clone, Copy, Debug, Default, PartialEq, Eq)]
pub struct Replica {
    pub view: u8,
    pub target: u8,
    pub base: u8,
    pub length: u8,
    pub mark: u8,
    pub word: u64,
    pub sealed: u64,
}

#[repr(C)]
#[derive(Clone, Copy, Debug, PartialEq, Eq)]
pub struct Status {
    pub stamped: u64,
    pub operations: [u64; SLOTS],
    pub replicas: [Replica; REPLICAS],
}

#[repr(C)]
#[derive(Clone, Copy, Debug, Default, PartialEq, Eq)]
pub struct Request {
    pub statement: Record,
    pub number: u8,
    pub replicas: u8,
    pub outcome: u8,
    pub value: u8,
}

/// The kinds of an outcome.
pub const GRANTED: u8 = 1;
pub const YES: u8 = 2;
pub const NO: u8 = 3;
pub const REFUSED: u8 = 4;

/// Which of the two services a life is run with.
#[derive(Clone, Copy, Debug, PartialEq, Eq)]
pub enum Kind {
    Rating,
    Allotment,
}

type RunLife = unsafe extern "C" fn(
    u64,
    u64,
    *mut u8,
    usize,
    *const Call,
    usize,
    *const Record,
    usize,
    *mut Outcome,
    usize,
    *mut Status,
) -> u8;

unsafe extern "C" {
    fn fotsgari_run_rating(
        f: u64,
        foreign: u64,
        tape: *mut u8,
        tape_length: usize,
        calls: *const Call,
        calls_length: usize,
        records: *const Record,
        records_length: usize,
        outcomes: *mut Outcome,
        outcomes_length: usize,
        status: *mut Status,
    ) -> u8;

    fn fotsgari_run_allotment(
        f: u64,
        foreign: u64,
        tape: *mut u8,
        tape_length: usize,
        calls: *const Call,
        calls_length: usize,
        records: *const Record,
        records_length: usize,
        outcomes: *mut Outcome,
        outcomes_length: usize,
        status: *mut Status,
    ) -> u8;

    fn fotsgari_use_tape(
        tape: *mut u8,
        length: usize,
        requests: *mut Request,
        requests_length: usize,
    );

    fn fotsgari_use_table(
        table: *mut Record,
        length: usize,
        requests: *mut Request,
        requests_length: usize,
    );

    fn fotsgari_use_sheets(requests: *mut Request, requests_length: usize);
}

unsafe extern "C" {
    /// Of the C library, with which std is linked: the seconds and nanoseconds of a clock.
    fn clock_gettime(clock: i32, time: *mut [i64; 2]) -> i32;
}

/// The time for which this thread has run, in nanoseconds; not what it waited while others ran.
pub fn thread_nanoseconds() -> f64 {
    const THREAD_CPUTIME: i32 = 3;
    let mut time = [0; 2];
    // SAFETY: on x86-64 Linux, for which the libraries are built, a time is two 64-bit numbers.
    let failed = unsafe { clock_gettime(THREAD_CPUTIME, &mut time) };
    assert_eq!(failed, 0, "there is no clock for the time of a thread");
    time[0] as f64 * 1e9 + time[1] as f64
}

/// What a life is run on and with.
#[derive(Clone, Copy)]
pub struct Given<'a> {
    pub kind: Kind,
    pub f: u64,
    pub foreign: u64,
    pub calls: &'a [Call],
    pub records: &'a [Record],
}

/// What a life writes to.
pub struct Written<'a> {
    pub tape: &'a mut [u8],
    pub outcomes: &'a mut [Outcome],
    pub status: &'a mut Status,
}

/// Runs a life by the library.
pub fn run_life(given: Given, written: Written) -> u8 {
    let run: RunLife = match given.kind {
        Kind::Rating => fotsgari_run_rating,
        Kind::Allotment => fotsgari_run_allotment,
    };
    // SAFETY: each pointer is that of a reference or of a slice, with the slice's length; what is
    // written is borrowed mutably, so it overlaps nothing else.
    unsafe {
        run(
            given.f,
            given.foreign,
            written.tape.as_mut_ptr(),
            written.tape.len(),
            given.calls.as_ptr(),
            given.calls.len(),
            given.records.as_ptr(),
            given.records.len(),
            written.outcomes.as_mut_ptr(),
            written.outcomes.len(),
            written.status,
        )
    }
}

/// Makes requests to a register over a tape, by the library.
pub fn use_tape(tape: &mut [u8], requests: &mut [Request]) {
    // SAFETY: as in run_life.
    unsafe {
        fotsgari_use_tape(tape.as_mut_ptr(), tape.len(), requests.as_mut_ptr(), requests.len())
    }
}

/// Makes requests to a register over a table, by the library.
pub fn use_table(table: &mut [Record], requests: &mut [Request]) {
    // SAFETY: as in run_life.
    unsafe {
        fotsgari_use_table(table.as_mut_ptr(), table.len(), requests.as_mut_ptr(), requests.len())
    }
}

/// Makes requests to two spare sheets, by the library.
pub fn use_sheets(requests: &mut [Request]) {
    // SAFETY: as in run_life.
    unsafe { fotsgari_use_sheets(requests.as_mut_ptr(), requests.len()) }
}

/// A struct of C that is made of integers alone, so that all bytes are a value of it.
///
/// # Safety
/// It is `repr(C)`, every field is an integer or an array of such structs or of integers, and its
/// alignment is at most that of a `u64`.
pub unsafe trait Plain: Copy {}

// SAFETY: they are declared above, of integers alone.
unsafe impl Plain for Outcome {}
unsafe impl Plain for Status {}
unsafe impl Plain for Record {}

/// Memory for some values, of which each byte can be read, also those between fields.
#[derive(Clone)]
pub struct Memory<T> {
    words: Vec<u64>,
    length: usize,
    of: PhantomData<T>,
}

impl<T: Plain> Memory<T> {
    /// Memory for this many values, with what the function gives for each 8 bytes.
    pub fn new(length: usize, mut word: impl FnMut() -> u64) -> Self {
        let words = (length * size_of::<T>()).div_ceil(8);
        Memory { words: (0..words).map(|_| word()).collect(), length, of: PhantomData }
    }

    pub fn values(&self) -> &[T] {
        // SAFETY: the words have at least as many bytes, all initialised, and their alignment.
        unsafe { std::slice::from_raw_parts(self.words.as_ptr().cast(), self.length) }
    }

    pub fn values_mut(&mut self) -> &mut [T] {
        // SAFETY: as in values.
        unsafe { std::slice::from_raw_parts_mut(self.words.as_mut_ptr().cast(), self.length) }
    }

    /// Every 8 bytes of it, as a number.
    pub fn words(&self) -> &[u64] {
        &self.words
    }

    pub fn words_mut(&mut self) -> &mut [u64] {
        &mut self.words
    }
}
