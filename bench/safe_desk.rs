//! The desk in plain safe Rust, as one would write it from the specification: the baseline that the proved desk is measured against.
//! A session's fields are private, so nothing is tested again; every index is checked by the language.
#![forbid(unsafe_code)]
#![allow(dead_code)] // each of the two programs over it uses a part

use std::io::Write;

#[path = "safe_file.rs"]
mod safe_file;
#[path = "safe_records.rs"]
mod safe_records;

pub use safe_file::{logarithm, row, Refusal};
use safe_file::{check, refuse, signed_4, unsigned, weight, Layout, PART_LIMIT};

pub const PARTS: usize = 31;
/// Where the prior means stand behind the logarithms.
const PRIOR_MEANS: usize = 272;
pub const TICKS: usize = PRIOR_MEANS + PARTS;
/// Of the parts' observations, of their priors, of the ratios.
pub const WEIGHTS: usize = 2 * PARTS + 15;
/// A mark for each part and accident year.
const YEARS: usize = 16;
pub const MARKS: usize = PARTS * YEARS;
const PAGE_LINE: usize = 28;
const SWEEP_LIMIT: u64 = 4096;

#[derive(Clone, Copy, Debug, PartialEq, Eq)]
pub enum Judgement {
    Passed,
    Fails(usize),
}

#[derive(Clone, Copy, Debug, PartialEq, Eq)]
pub enum Sweeping {
    Settled(u64),
    Going(u64),
}

/// The figures of an open file: both halves of the matrix, row k and column l at PARTS * k + l, and zeros behind the parts.
#[derive(Clone, Debug, PartialEq, Eq)]
pub struct Figures {
    pub last: usize,
    pub closeness: u64,
    pub own: [u64; PARTS],
    pub matrix: [i64; PARTS * PARTS],
    pub right_hand: [i64; PARTS],
}

/// The central ultimate of an accident year: floor and remainder over the divisor, in ticks.
#[derive(Clone, Copy, Debug, PartialEq, Eq)]
pub struct Ultimate {
    pub floor: i64,
    pub remainder: u64,
    pub divisor: u64,
}

pub struct Session {
    last: usize,
    closeness: u64,
    total: u64,
    own: [u64; PARTS],
    matrix: [i64; PARTS * PARTS],
    right_hand: [i64; PARTS],
    mean: [i64; PARTS],
    ticks: [i64; TICKS],
    weights: [u64; WEIGHTS],
    variances: [u64; PARTS],
    struck: [bool; MARKS],
}

impl Session {
    pub fn empty() -> Self {
        Session {
            last: 0,
            closeness: 0,
            total: 0,
            own: [0; PARTS],
            matrix: [0; PARTS * PARTS],
            right_hand: [0; PARTS],
            mean: [0; PARTS],
            ticks: [0; TICKS],
            weights: [0; WEIGHTS],
            variances: [0; PARTS],
            struck: [false; MARKS],
        }
    }

    pub fn close(&mut self) {
        self.last = 0;
    }

    fn parts(&self) -> usize {
        2 * self.last + 1
    }

    #[inline(never)]
    pub fn open(&mut self, file: &[u8]) -> Result<(), Refusal> {
        if self.last != 0 {
            return refuse(22, 0);
        }
        let at = check(file)?;
        self.struck = [false; MARKS];
        self.observe(file, &at);
        self.set_figures(&at);
        self.mean[..at.parts].copy_from_slice(&self.ticks[PRIOR_MEANS..PRIOR_MEANS + at.parts]);
        self.last = at.last;
        self.closeness = unsigned::<4>(file, 6);
        self.total = 0;
        Ok(())
    }

    fn observe(&mut self, file: &[u8], at: &Layout) {
        for (c, log) in self.ticks.iter_mut().enumerate().take(2 * at.cells) {
            *log = logarithm(unsigned::<8>(file, at.amount(c)));
        }
        for k in 0..at.parts {
            self.variances[k] = unsigned::<8>(file, at.variance(k));
            self.weights[k] = weight(self.variances[k]);
            self.weights[PARTS + k] = weight(unsigned::<8>(file, at.prior_variance(k)));
            self.ticks[PRIOR_MEANS + k] = signed_4(file, at.prior_mean(k));
        }
        let mut variance = 0;
        for k in (0..at.last).rev() {
            variance += self.variances[k + 1] + self.variances[at.last + 1 + k];
            self.weights[2 * PARTS + k] = weight(variance);
        }
    }

    fn set_figures(&mut self, at: &Layout) {
        let last = at.last;
        let mut shares = [0i64; 16];
        let mut ratios = [0i64; 16];
        let mut cell = at.cells - 1;
        for k in 0..last {
            let weight = self.weights[2 * PARTS + k] as i64;
            shares[k + 1] = shares[k] + weight;
            ratios[k + 1] = ratios[k] + weight * (self.ticks[at.cells + cell] - self.ticks[cell]);
            cell -= k + 1;
        }
        let rank = |k: usize| if k <= last { k } else { k - last };
        for k in 0..at.parts {
            let (column, prior) = (self.weights[k], self.weights[PARTS + k]);
            let struck = &self.struck[YEARS * k..YEARS * k + steps(last, k)];
            self.own[k] = prior + left(struck) * column;
            let sum = observations(&self.ticks, at, k, struck, |step| step);
            let shared = if k <= last { ratios[rank(k)] } else { -ratios[rank(k)] };
            self.right_hand[k] = prior as i64 * self.ticks[PRIOR_MEANS + k] + column as i64 * sum + shared;
            for l in 0..at.parts {
                let share = shares[rank(k).min(rank(l))];
                let entry = if (k <= last) == (l <= last) { share } else { -share };
                self.matrix[PARTS * k + l] = if k == l { entry + self.own[k] as i64 } else { entry };
            }
        }
    }

    #[inline(never)]
    pub fn strike(&mut self, channel: u64, year: u64, column: u64) -> Result<(), Refusal> {
        if self.last == 0 {
            return refuse(21, 0);
        }
        if channel > 1 {
            return refuse(14, 0);
        }
        let last = self.last;
        if year.checked_add(column).and_then(|sum| sum.checked_add(channel)).map_or(true, |sum| sum > last as u64) {
            return refuse(26, 0);
        }
        let part = if channel == 0 { column as usize } else { last + 1 + column as usize };
        let struck = &mut self.struck[YEARS * part..YEARS * part + steps(last, part)];
        if struck[year as usize] {
            return refuse(26, 0);
        }
        if left(struck) == 1 {
            return refuse(27, 0);
        }
        struck[year as usize] = true;
        let at = Layout::new(last);
        self.set_figures(&at);
        self.mean[..at.parts].copy_from_slice(&self.ticks[PRIOR_MEANS..PRIOR_MEANS + at.parts]);
        self.total = 0;
        Ok(())
    }

    /// For a measurement: as if nothing were struck, but that the figures stay.
    pub fn forget_marks(&mut self) {
        self.struck = [false; MARKS];
    }

    fn residues(&self, mean: &[i64; PARTS]) -> [i64; PARTS] {
        let parts = self.parts();
        let mut found = [0; PARTS];
        for (k, residue) in found.iter_mut().enumerate().take(parts) {
            let row = &self.matrix[PARTS * k..PARTS * k + parts];
            *residue = row.iter().zip(mean).map(|(a, m)| a * m).sum::<i64>() - self.right_hand[k];
        }
        found
    }

    fn test(&self, residues: &[i64; PARTS]) -> Judgement {
        for k in 0..self.parts() {
            if residues[k].unsigned_abs() > self.closeness * self.own[k] {
                return Judgement::Fails(k);
            }
        }
        Judgement::Passed
    }

    #[inline(never)]
    pub fn judge(&self, record: &[u8]) -> Result<Judgement, Refusal> {
        let mut mean = [0; PARTS];
        self.read_record(record, &mut mean)?;
        Ok(self.test(&self.residues(&mean)))
    }

    fn one_sweep(&mut self, residues: &mut [i64; PARTS]) {
        let parts = self.parts();
        for k in 0..parts {
            let diagonal = self.matrix[PARTS * k + k];
            let old = self.mean[k];
            let change = (diagonal - 2 * residues[k]).div_euclid(2 * diagonal);
            self.mean[k] = (old + change).clamp(-PART_LIMIT, PART_LIMIT);
            let change = self.mean[k] - old;
            if change != 0 {
                for l in 0..parts {
                    residues[l] += self.matrix[PARTS * l + k] * change;
                }
            }
        }
    }

    #[inline(never)]
    pub fn sweep(&mut self, n: u64) -> Result<Sweeping, Refusal> {
        if self.last == 0 {
            return refuse(21, 0);
        }
        if !(1..=SWEEP_LIMIT).contains(&n) {
            return refuse(12, 0);
        }
        let mut residues = self.residues(&self.mean);
        if self.test(&residues) == Judgement::Passed {
            return Ok(Sweeping::Settled(self.total));
        }
        if self.total == SWEEP_LIMIT {
            return refuse(23, 0);
        }
        for _ in 0..n {
            self.one_sweep(&mut residues);
            self.total += 1;
            if self.test(&residues) == Judgement::Passed {
                return Ok(Sweeping::Settled(self.total));
            }
            if self.total == SWEEP_LIMIT {
                break;
            }
        }
        Ok(Sweeping::Going(self.total))
    }

    fn passing(&self) -> Result<(), Refusal> {
        if self.last == 0 {
            return refuse(21, 0);
        }
        if self.test(&self.residues(&self.mean)) != Judgement::Passed { refuse(24, 0) } else { Ok(()) }
    }

    /// Of a call that writes so many bytes of a mean that passes.
    fn room(&self, buffer: &[u8], length: usize) -> Result<(), Refusal> {
        self.passing()?;
        if buffer.len() < length { refuse(13, 0) } else { Ok(()) }
    }

    #[inline(never)]
    pub fn read(&self, buffer: &mut [u8]) -> Result<usize, Refusal> {
        let length = 5 + 4 * self.parts();
        self.room(buffer, length)?;
        buffer[..4].copy_from_slice(&(length as u32).to_be_bytes());
        buffer[4] = 1;
        for k in 0..self.parts() {
            buffer[5 + 4 * k..9 + 4 * k].copy_from_slice(&(self.mean[k] as i32).to_be_bytes());
        }
        Ok(length)
    }

    #[inline(never)]
    pub fn page(&self, buffer: &mut [u8]) -> Result<usize, Refusal> {
        let length = PAGE_LINE * self.parts();
        self.room(buffer, length)?;
        for (k, mut line) in buffer[..length].chunks_exact_mut(PAGE_LINE).enumerate() {
            let (name, index) = if k <= self.last { ("phi", k) } else { ("psi", k - self.last - 1) };
            writeln!(line, "{name} {index:>2} {:>9} {:>10}", self.mean[k], self.own[k]).expect("every number fits its columns");
        }
        Ok(length)
    }

    /// In 128 bits, which Rust has.
    #[inline(never)]
    pub fn ultimate(&self, year: u64) -> Result<Ultimate, Refusal> {
        self.passing()?;
        if year < 1 || year > self.last as u64 {
            return refuse(25, 0);
        }
        let (last, year) = (self.last, year as usize);
        let known = last - year;
        let cell = (0..year).map(|i| last + 1 - i).sum::<usize>() + known;
        let (phi, psi) = (known + 1..last + 1, last + 1 + known..self.parts());
        let paid = self.ticks[cell] + self.mean[phi.clone()].iter().sum::<i64>();
        let incurred = self.ticks[(last + 1) * (last + 2) / 2 + cell] + self.mean[psi.clone()].iter().sum::<i64>();
        let (n, m): (u64, u64) = (self.variances[phi].iter().sum(), self.variances[psi].iter().sum());
        let numerator = i128::from(m) * i128::from(paid) + i128::from(n) * i128::from(incurred);
        let divisor = i128::from(n + m);
        Ok(Ultimate {
            floor: numerator.div_euclid(divisor) as i64,
            remainder: numerator.rem_euclid(divisor) as u64,
            divisor: n + m,
        })
    }

    /// Behind the parts a session may have what an earlier file left there.
    #[inline(never)]
    pub fn figures(&self) -> Result<Figures, Refusal> {
        if self.last == 0 {
            return refuse(21, 0);
        }
        let parts = self.parts();
        let mut shown =
            Figures { last: self.last, closeness: self.closeness, own: [0; PARTS], matrix: [0; PARTS * PARTS], right_hand: [0; PARTS] };
        shown.own[..parts].copy_from_slice(&self.own[..parts]);
        shown.right_hand[..parts].copy_from_slice(&self.right_hand[..parts]);
        for k in 0..parts {
            let row = PARTS * k..PARTS * k + parts;
            shown.matrix[row.clone()].copy_from_slice(&self.matrix[row]);
        }
        Ok(shown)
    }

    pub fn last(&self) -> usize {
        self.last
    }

    /// The mean and the total, to start a measurement anew.
    pub fn kept(&self) -> ([i64; PARTS], u64) {
        (self.mean, self.total)
    }

    pub fn restore(&mut self, kept: &([i64; PARTS], u64)) {
        self.mean = kept.0;
        self.total = kept.1;
    }
}

/// How many observations a part has of its own.
fn steps(last: usize, k: usize) -> usize {
    if k <= last {
        last - k + 1
    } else {
        2 * last + 1 - k
    }
}

fn left(struck: &[bool]) -> u64 {
    struck.iter().filter(|&&mark| !mark).count() as u64
}

/// The sum of a term for each step of a part that is left.
fn observations(logs: &[i64; TICKS], at: &Layout, k: usize, struck: &[bool], term: impl Fn(i64) -> i64) -> i64 {
    let mut cell = match k {
        0 => 0,
        _ if k <= at.last => k - 1,
        _ => at.cells + k - at.last - 1,
    };
    let mut sum = 0;
    for (i, &mark) in struck.iter().enumerate() {
        if !mark {
            sum += term(if k == 0 { logs[cell] } else { logs[cell + 1] - logs[cell] });
        }
        cell += at.last + 1 - i;
    }
    sum
}
