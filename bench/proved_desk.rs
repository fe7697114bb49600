//! The proved desk: the session and the answers of include/desk.h, and its calls over the library.

use super::safe_desk::{MARKS, PARTS, TICKS, WEIGHTS};

pub type Weights = [u64; PARTS];
pub type Matrix = [i64; PARTS * PARTS];
pub type Vector = [i64; PARTS];

#[repr(C)]
#[derive(Clone)]
pub struct Held {
    pub held: [u64; 3],
    pub own: Weights,
    pub matrix: Matrix,
    pub right_hand: Vector,
    pub mean: Vector,
    pub ticks: [i64; TICKS],
    pub weights: [u64; WEIGHTS],
    pub variances: Weights,
    pub struck: [u8; MARKS],
}

#[repr(C)]
#[derive(Clone, Copy, Debug, PartialEq, Eq)]
pub struct Refusal {
    pub number: u64,
    pub place: u64,
}

#[repr(C)]
#[derive(Clone, Copy, Debug, PartialEq, Eq)]
pub struct Told {
    pub refusal: Refusal,
    pub flag: u64,
    pub value: u64,
}

#[repr(C)]
pub struct System {
    pub refusal: Refusal,
    pub last: u64,
    pub closeness: u64,
    pub own: Weights,
    pub matrix: Matrix,
    pub right_hand: Vector,
}

#[repr(C)]
#[derive(Clone, Copy, Debug, PartialEq, Eq)]
pub struct Projected {
    pub refusal: Refusal,
    pub floor: i64,
    pub remainder: u64,
    pub divisor: u64,
}

#[repr(C)]
#[derive(Clone, Copy, Debug, PartialEq, Eq)]
pub struct Shown {
    pub refusal: Refusal,
    pub start: u64,
    pub length: u64,
}

extern "C" {
    fn desk_open_lent(
        held: &mut [u64; 3], own: &mut Weights, matrix: &mut Matrix, right_hand: &mut Vector, mean: &mut Vector,
        ticks: &mut [i64; TICKS], weights: &mut [u64; WEIGHTS], variances: &mut Weights, struck: &mut [u8; MARKS], file: *const u8,
        length: usize,
    ) -> Refusal;
    fn desk_strike_lent(
        held: &mut [u64; 3], own: &mut Weights, matrix: &mut Matrix, right_hand: &mut Vector, mean: &mut Vector,
        ticks: &mut [i64; TICKS], weights: &mut [u64; WEIGHTS], struck: &mut [u8; MARKS], channel: u64, year: u64, column: u64,
    ) -> Refusal;
    fn desk_judge_lent(
        held: &[u64; 3], own: &Weights, matrix: &Matrix, right_hand: &Vector, mean: &Vector, record: *const u8, length: usize,
    ) -> Told;
    fn desk_residues_lent(
        held: &[u64; 3], own: &Weights, matrix: &Matrix, right_hand: &Vector, mean: &Vector, ticks: &[i64; TICKS],
        weights: &[u64; WEIGHTS], struck: &[u8; MARKS], record: *const u8, record_length: usize, buffer: *mut u8, buffer_length: usize,
    ) -> Refusal;
    fn desk_sweep_lent(held: &mut [u64; 3], own: &Weights, matrix: &Matrix, right_hand: &Vector, mean: &mut Vector, n: u64) -> Told;
    fn desk_read_lent(
        held: &[u64; 3], own: &Weights, matrix: &Matrix, right_hand: &Vector, mean: &Vector, buffer: *mut u8, length: usize,
    ) -> Refusal;
    fn desk_page_lent(
        held: &[u64; 3], own: &Weights, matrix: &Matrix, right_hand: &Vector, mean: &Vector, buffer: *mut u8, length: usize,
    ) -> Refusal;
    fn desk_ultimate_lent(
        held: &[u64; 3], own: &Weights, matrix: &Matrix, right_hand: &Vector, mean: &Vector, ticks: &[i64; TICKS], variances: &Weights,
        year: u64,
    ) -> Projected;
    fn desk_figures_lent(held: &[u64; 3], own: &Weights, matrix: &Matrix, right_hand: &Vector, mean: &Vector) -> System;
    fn desk_close_lent(held: &mut [u64; 3]);
    fn desk_row(file: *const u8, length: usize, channel: u64, year: u64) -> Shown;
}

pub const DONE: Refusal = Refusal { number: 0, place: 0 };

impl Held {
    pub fn empty() -> Self {
        Held {
            held: [0; 3],
            own: [0; PARTS],
            matrix: [0; PARTS * PARTS],
            right_hand: [0; PARTS],
            mean: [0; PARTS],
            ticks: [0; TICKS],
            weights: [0; WEIGHTS],
            variances: [0; PARTS],
            struck: [0; MARKS],
        }
    }
    pub fn open(&mut self, file: &[u8]) -> Refusal {
        // SAFETY: the pointer is the slice's, valid for its length; the arrays are nine different fields.
        let Held { held, own, matrix, right_hand, mean, ticks, weights, variances, struck } = self;
        unsafe { desk_open_lent(held, own, matrix, right_hand, mean, ticks, weights, variances, struck, file.as_ptr(), file.len()) }
    }
    pub fn judge(&self, record: &[u8]) -> Told {
        // SAFETY: as above.
        unsafe { desk_judge_lent(&self.held, &self.own, &self.matrix, &self.right_hand, &self.mean, record.as_ptr(), record.len()) }
    }
    pub fn residues(&self, record: &[u8], buffer: &mut [u8]) -> Refusal {
        let Held { held, own, matrix, right_hand, mean, ticks, weights, struck, .. } = self;
        let (from, to) = (record.as_ptr(), buffer.as_mut_ptr());
        // SAFETY: as above; record and buffer are slices apart.
        unsafe { desk_residues_lent(held, own, matrix, right_hand, mean, ticks, weights, struck, from, record.len(), to, buffer.len()) }
    }
    pub fn sweep(&mut self, n: u64) -> Told {
        // SAFETY: the arrays are five different fields.
        unsafe { desk_sweep_lent(&mut self.held, &self.own, &self.matrix, &self.right_hand, &mut self.mean, n) }
    }
    pub fn read(&self, buffer: &mut [u8]) -> Refusal {
        // SAFETY: as above; the buffer is a slice apart.
        unsafe { desk_read_lent(&self.held, &self.own, &self.matrix, &self.right_hand, &self.mean, buffer.as_mut_ptr(), buffer.len()) }
    }
    pub fn page(&self, buffer: &mut [u8]) -> Refusal {
        // SAFETY: as above.
        unsafe { desk_page_lent(&self.held, &self.own, &self.matrix, &self.right_hand, &self.mean, buffer.as_mut_ptr(), buffer.len()) }
    }
    pub fn ultimate(&self, year: u64) -> Projected {
        let Held { held, own, matrix, right_hand, mean, ticks, variances, .. } = self;
        // SAFETY: the arrays are seven different fields.
        unsafe { desk_ultimate_lent(held, own, matrix, right_hand, mean, ticks, variances, year) }
    }
    pub fn strike(&mut self, channel: u64, year: u64, column: u64) -> Refusal {
        let Held { held, own, matrix, right_hand, mean, ticks, weights, struck, .. } = self;
        // SAFETY: the arrays are eight different fields.
        unsafe { desk_strike_lent(held, own, matrix, right_hand, mean, ticks, weights, struck, channel, year, column) }
    }
    pub fn figures(&self) -> System {
        // SAFETY: the arrays are five different fields.
        unsafe { desk_figures_lent(&self.held, &self.own, &self.matrix, &self.right_hand, &self.mean) }
    }
    pub fn close(&mut self) {
        // SAFETY: one array.
        unsafe { desk_close_lent(&mut self.held) }
    }
    pub fn row(file: &[u8], channel: usize, year: usize) -> &[u8] {
        // SAFETY: the pointer is the slice's, valid for its length.
        let shown = unsafe { desk_row(file.as_ptr(), file.len(), channel as u64, year as u64) };
        assert_eq!(shown.refusal, DONE);
        &file[shown.start as usize..(shown.start + shown.length) as usize]
    }
}
