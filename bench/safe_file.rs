//! A file in plain safe Rust: its fields and checks, the logarithm of an amount and the weight of a variance, a row.

pub const PART_LIMIT: i64 = 1 << 26;
const TICKS_PER_DOUBLING: i64 = 1 << 20;

#[derive(Clone, Copy, Debug, PartialEq, Eq)]
pub struct Refusal {
    pub number: u64,
    pub place: usize,
}

pub fn refuse<T>(number: u64, place: usize) -> Result<T, Refusal> {
    Err(Refusal { number, place })
}

pub fn unsigned<const N: usize>(bytes: &[u8], at: usize) -> u64 {
    bytes[at..at + N].iter().fold(0, |number, &byte| number << 8 | u64::from(byte))
}

pub fn signed_4(bytes: &[u8], at: usize) -> i64 {
    i64::from(unsigned::<4>(bytes, at) as u32 as i32)
}

/// The specification's logarithm. The compiler makes no jump of its branch.
pub fn logarithm(amount: u64) -> i64 {
    let h = 63 - amount.leading_zeros();
    let mut y = if h <= 31 { amount << (31 - h) } else { amount >> (h - 31) };
    let mut bits = 0;
    for _ in 0..21 {
        let square = y * y;
        if square >= 1 << 63 {
            bits = 2 * bits + 1;
            y = square >> 32;
        } else {
            bits *= 2;
            y = square >> 31;
        }
    }
    (2 * i64::from(h) * TICKS_PER_DOUBLING + bits + 1) >> 1
}

/// A variance of 0 stands for no prior.
pub fn weight(variance: u64) -> u64 {
    ((1 << 47) + variance).checked_div(2 * variance).unwrap_or(0)
}

/// Where the fields of a file of J stand.
pub struct Layout {
    pub last: usize,
    pub parts: usize,
    priors: usize,
    amounts: usize,
    pub cells: usize,
}

impl Layout {
    pub fn new(last: usize) -> Self {
        let parts = 2 * last + 1;
        Layout { last, parts, priors: 10 + 8 * parts, amounts: 10 + 20 * parts, cells: (last + 1) * (last + 2) / 2 }
    }
    pub fn variance(&self, k: usize) -> usize {
        10 + 8 * k
    }
    pub fn prior_mean(&self, k: usize) -> usize {
        self.priors + 12 * k
    }
    pub fn prior_variance(&self, k: usize) -> usize {
        self.prior_mean(k) + 4
    }
    pub fn amount(&self, c: usize) -> usize {
        self.amounts + 8 * c
    }
}

pub fn check(file: &[u8]) -> Result<Layout, Refusal> {
    if file.len() < 10 || unsigned::<4>(file, 0) != file.len() as u64 {
        return refuse(1, 0);
    }
    if file[4] != 1 {
        return refuse(2, 4);
    }
    let last = usize::from(file[5]);
    if !(1..=15).contains(&last) {
        return refuse(3, 5);
    }
    let at = Layout::new(last);
    if file.len() != at.amount(2 * at.cells) {
        return refuse(4, 0);
    }
    if !(1..=65536).contains(&unsigned::<4>(file, 6)) {
        return refuse(5, 6);
    }
    for k in 0..at.parts {
        if !(1 << 18..=1 << 40).contains(&unsigned::<8>(file, at.variance(k))) {
            return refuse(6, at.variance(k));
        }
    }
    for k in 0..at.parts {
        let variance = unsigned::<8>(file, at.prior_variance(k));
        if variance != 0 && !(1 << 18..=1 << 46).contains(&variance) {
            return refuse(7, at.prior_variance(k));
        }
    }
    for k in 0..at.parts {
        if signed_4(file, at.prior_mean(k)).abs() > PART_LIMIT {
            return refuse(8, at.prior_mean(k));
        }
    }
    for c in 0..2 * at.cells {
        if !(1..=1 << 44).contains(&unsigned::<8>(file, at.amount(c))) {
            return refuse(9, at.amount(c));
        }
    }
    if unsigned::<8>(file, at.amount(last)) != unsigned::<8>(file, at.amount(at.cells + last)) {
        return refuse(10, at.amount(last));
    }
    Ok(at)
}

/// The amounts of a year in the paid (0) or the incurred (1) block of a file.
#[inline(never)]
pub fn row(file: &[u8], channel: usize, year: usize) -> Result<&[u8], Refusal> {
    let at = check(file)?;
    if channel > 1 {
        return refuse(14, 0);
    }
    if year > at.last {
        return refuse(15, 0);
    }
    let before = year * (2 * at.last + 3 - year) / 2;
    let start = at.amount(channel * at.cells + before);
    Ok(&file[start..start + 8 * (at.last + 1 - year)])
}
