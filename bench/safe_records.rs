//! A mean record in plain safe Rust: its checks, and the residues of its mean, added up observation by observation with no matrix.

use super::safe_file::{refuse, signed_4, unsigned, Layout, Refusal, PART_LIMIT};
use super::{observations, steps, Session, PARTS, PRIOR_MEANS, YEARS};

const RESIDUE_BYTES: usize = 8;

impl Session {
    /// The mean of a record for the file that is open, into an array of zeros: given back, it would be copied.
    #[inline]
    pub(super) fn read_record(&self, record: &[u8], mean: &mut [i64; PARTS]) -> Result<(), Refusal> {
        if self.last == 0 {
            return refuse(21, 0);
        }
        if record.len() < 5 || unsigned::<4>(record, 0) != record.len() as u64 {
            return refuse(1, 0);
        }
        if record[4] != 1 {
            return refuse(2, 4);
        }
        if record.len() != 5 + 4 * self.parts() {
            return refuse(4, 0);
        }
        for k in 0..self.parts() {
            mean[k] = signed_4(record, 5 + 4 * k);
            if mean[k].abs() > PART_LIMIT {
                return refuse(11, 5 + 4 * k);
            }
        }
        Ok(())
    }

    #[inline(never)]
    pub fn write_residues(&self, record: &[u8], buffer: &mut [u8]) -> Result<usize, Refusal> {
        let mut mean = [0; PARTS];
        self.read_record(record, &mut mean)?;
        let length = RESIDUE_BYTES * self.parts();
        if buffer.len() < length {
            return refuse(13, 0);
        }
        let residues = self.residues_by_observations(&mean);
        for (bytes, residue) in buffer[..length].chunks_exact_mut(RESIDUE_BYTES).zip(residues) {
            bytes.copy_from_slice(&residue.to_be_bytes());
        }
        Ok(length)
    }

    fn residues_by_observations(&self, mean: &[i64; PARTS]) -> [i64; PARTS] {
        let at = Layout::new(self.last);
        let mut found = [0; PARTS];
        for (k, residue) in found.iter_mut().enumerate().take(at.parts) {
            let (column, prior) = (self.weights[k] as i64, self.weights[PARTS + k] as i64);
            let struck = &self.struck[YEARS * k..YEARS * k + steps(at.last, k)];
            let own = observations(&self.ticks, &at, k, struck, |step| column * (mean[k] - step));
            *residue = prior * (mean[k] - self.ticks[PRIOR_MEANS + k]) + own;
        }
        self.add_ratios(&at, mean, &mut found);
        found
    }

    /// The ratio of the year whose latest column is k is about the phi behind k and the psi from k on: it counts in each of them, and so do
    /// those of the years behind it, which have more to come.
    fn add_ratios(&self, at: &Layout, mean: &[i64; PARTS], residues: &mut [i64; PARTS]) {
        let last = at.last;
        let mut to_come = mean[1..=last].iter().sum::<i64>() - mean[last + 1..at.parts].iter().sum::<i64>();
        let mut sum = 0;
        let mut cell = at.cells - 1;
        for k in 0..last {
            let ratio = self.ticks[at.cells + cell] - self.ticks[cell];
            sum += self.weights[2 * PARTS + k] as i64 * (to_come - ratio);
            residues[k + 1] += sum;
            residues[last + 1 + k] -= sum;
            to_come -= mean[k + 1] - mean[last + 1 + k];
            cell -= k + 1;
        }
    }
}
