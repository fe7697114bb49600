//! Times each call of the proved desk beside the plain one, on the same files, and checks that both answer alike.
//!
//!     calls rounds ROUNDS FILE..                  a line for each round, file and call: J, call, nanoseconds of each desk
//!     calls listings ROUNDS PROVED PLAIN FILE..   the same of two listing programs, start to end
//!     calls repeat proved|plain CALL N FILE       one call N times, for a count of instructions

mod proved_desk;
mod safe_desk;

use proved_desk::{Held, Projected, System, Told, DONE};
use safe_desk::{Figures, Judgement, Session, Sweeping, Ultimate, MARKS, PARTS};
use std::hint::black_box;
use std::process::{Command, Stdio};
use std::time::Instant;

const ROUND_NANOSECONDS: f64 = 1e7; // of one call, over and over
const LISTINGS: u32 = 100; // runs of a listing program in a round

const LONGEST_RECORD: usize = 129;
const LONGEST_PAGE: usize = 868;
const LONGEST_RESIDUES: usize = 248;
const INCURRED: usize = 1;

const CALLS: [&str; 11] = [
    "open", "strike", "judge", "residues", "one sweep", "sweep until settled", "read", "page", "ultimate", "figures", "row",
];

/// What is timed of either desk; an answer is asserted, not used.
trait Desk {
    fn empty() -> Self;
    fn open_anew(&mut self, file: &[u8]);
    /// The first paid step of the oldest year, whatever was struck before.
    fn strike_anew(&mut self);
    fn judge_passes(&self, record: &[u8]);
    fn residues_into(&self, record: &[u8], buffer: &mut [u8]);
    fn sweep_from(&mut self, start: &Start, n: u64) -> u64;
    fn read_into(&self, buffer: &mut [u8]);
    fn page_into(&self, buffer: &mut [u8]);
    fn ultimate_of(&self, year: u64) -> Ultimate;
    fn show_figures(&self);
    fn figures_shown(&self) -> Figures;
    fn start(&self) -> Start;
    fn row_of(file: &[u8], channel: usize, year: usize) -> &[u8];
}

/// A mean and a total, to start the sweeps of a measurement from.
type Start = ([i64; PARTS], u64);

impl Desk for Held {
    fn empty() -> Self {
        Held::empty()
    }
    fn open_anew(&mut self, file: &[u8]) {
        self.close();
        assert_eq!(self.open(file), DONE);
    }
    fn strike_anew(&mut self) {
        self.struck = [0; MARKS];
        assert_eq!(self.strike(0, 0, 0), DONE);
    }
    fn judge_passes(&self, record: &[u8]) {
        assert_eq!(self.judge(record), Told { refusal: DONE, flag: 1, value: 0 });
    }
    fn residues_into(&self, record: &[u8], buffer: &mut [u8]) {
        assert_eq!(self.residues(record, buffer), DONE);
    }
    fn sweep_from(&mut self, start: &Start, n: u64) -> u64 {
        self.mean = start.0;
        self.held[2] = start.1;
        let told = self.sweep(n);
        assert_eq!((told.refusal, told.flag), (DONE, u64::from(n > 1)));
        told.value
    }
    fn read_into(&self, buffer: &mut [u8]) {
        assert_eq!(self.read(buffer), DONE);
    }
    fn page_into(&self, buffer: &mut [u8]) {
        assert_eq!(self.page(buffer), DONE);
    }
    fn ultimate_of(&self, year: u64) -> Ultimate {
        let Projected { refusal, floor, remainder, divisor } = self.ultimate(year);
        assert_eq!(refusal, DONE);
        Ultimate { floor, remainder, divisor }
    }
    fn show_figures(&self) {
        assert_eq!(black_box(&self.figures()).refusal, DONE);
    }
    fn figures_shown(&self) -> Figures {
        let System { refusal, last, closeness, own, matrix, right_hand } = self.figures();
        assert_eq!(refusal, DONE);
        Figures { last: last as usize, closeness, own, matrix, right_hand }
    }
    fn start(&self) -> Start {
        (self.mean, self.held[2])
    }
    fn row_of(file: &[u8], channel: usize, year: usize) -> &[u8] {
        Held::row(file, channel, year)
    }
}

impl Desk for Session {
    fn empty() -> Self {
        Session::empty()
    }
    fn open_anew(&mut self, file: &[u8]) {
        self.close();
        assert_eq!(self.open(file), Ok(()));
    }
    fn strike_anew(&mut self) {
        self.forget_marks();
        assert_eq!(self.strike(0, 0, 0), Ok(()));
    }
    fn judge_passes(&self, record: &[u8]) {
        assert_eq!(self.judge(record), Ok(Judgement::Passed));
    }
    fn residues_into(&self, record: &[u8], buffer: &mut [u8]) {
        assert!(self.write_residues(record, buffer).is_ok());
    }
    fn sweep_from(&mut self, start: &Start, n: u64) -> u64 {
        self.restore(start);
        match self.sweep(n) {
            Ok(Sweeping::Settled(total)) if n > 1 => total,
            Ok(Sweeping::Going(total)) if n == 1 => total,
            other => panic!("{other:?}"),
        }
    }
    fn read_into(&self, buffer: &mut [u8]) {
        assert!(self.read(buffer).is_ok());
    }
    fn page_into(&self, buffer: &mut [u8]) {
        assert!(self.page(buffer).is_ok());
    }
    fn ultimate_of(&self, year: u64) -> Ultimate {
        self.ultimate(year).expect("a year of the open file")
    }
    fn show_figures(&self) {
        assert!(black_box(&self.figures()).is_ok());
    }
    fn figures_shown(&self) -> Figures {
        self.figures().expect("an open file")
    }
    fn start(&self) -> Start {
        self.kept()
    }
    fn row_of(file: &[u8], channel: usize, year: usize) -> &[u8] {
        safe_desk::row(file, channel, year).expect("a row of an accepted file")
    }
}

/// A desk with a file open, the same with a step struck, and the same settled.
struct Ready<D> {
    desk: D,
    struck: D,
    start: Start,
    settled: D,
    total: u64,
}

impl<D: Desk> Ready<D> {
    fn new(file: &[u8]) -> Self {
        let (mut desk, mut struck, mut settled) = (D::empty(), D::empty(), D::empty());
        desk.open_anew(file);
        struck.open_anew(file);
        struck.strike_anew();
        settled.open_anew(file);
        let start = desk.start();
        let total = settled.sweep_from(&start, 4096);
        assert!(total > 1, "the sample needs more than one sweep");
        Ready { desk, struck, start, settled, total }
    }

    fn run(&mut self, call: &str, file: &[u8], record: &[u8], times: u64) {
        let mut buffer = [0; LONGEST_PAGE];
        for _ in 0..times {
            match call {
                "open" => self.desk.open_anew(black_box(file)),
                "strike" => black_box(&mut self.struck).strike_anew(),
                "judge" => self.desk.judge_passes(black_box(record)),
                "residues" => black_box(&self.desk).residues_into(black_box(record), black_box(&mut buffer)),
                "read" => self.settled.read_into(black_box(&mut buffer)),
                "page" => self.settled.page_into(black_box(&mut buffer)),
                "ultimate" => drop(black_box(self.settled.ultimate_of(black_box(u64::from(file[5]))))), // the one with most to come
                "figures" => black_box(&self.desk).show_figures(),
                "row" => drop(black_box(D::row_of(black_box(file), INCURRED, usize::from(file[5])))), // the last, which is furthest
                "one sweep" => drop(black_box(self.desk.sweep_from(&self.start, black_box(1)))),
                _ => drop(black_box(self.desk.sweep_from(&self.start, black_box(4096)))),
            }
        }
    }
}

/// Both desks on one file, which answer alike, and the record of its settled mean.
struct Pair {
    file: Vec<u8>,
    record: Vec<u8>,
    proved: Ready<Held>,
    plain: Ready<Session>,
}

impl Pair {
    fn new(path: &str) -> Self {
        let file = std::fs::read(path).expect("a file of the desk");
        let (proved, plain) = (Ready::<Held>::new(&file), Ready::<Session>::new(&file));
        assert_eq!((proved.start, proved.total), (plain.start, plain.total));
        assert_eq!(proved.desk.figures_shown(), plain.desk.figures_shown());
        assert_eq!(proved.struck.figures_shown(), plain.struck.figures_shown());
        assert_ne!(proved.struck.figures_shown(), proved.desk.figures_shown());
        let (mut record, mut other) = (vec![0; LONGEST_RECORD], vec![0; LONGEST_RECORD]);
        proved.settled.read_into(&mut record);
        plain.settled.read_into(&mut other);
        assert_eq!(record, other);
        let (mut page, mut other) = (vec![0; LONGEST_PAGE], vec![0; LONGEST_PAGE]);
        proved.settled.page_into(&mut page);
        plain.settled.page_into(&mut other);
        assert_eq!(page, other);
        for year in 1..=u64::from(file[5]) {
            assert_eq!(proved.settled.ultimate_of(year), plain.settled.ultimate_of(year));
        }
        for (channel, year) in (0..=INCURRED).flat_map(|channel| (0..=usize::from(file[5])).map(move |year| (channel, year))) {
            assert_eq!(Held::row_of(&file, channel, year), Session::row_of(&file, channel, year));
        }
        record.truncate(5 + 4 * (2 * usize::from(file[5]) + 1));
        proved.desk.judge_passes(&record);
        plain.desk.judge_passes(&record);
        expect_residues_alike(&proved.desk, &plain.desk, &record);
        expect_residues_alike(&proved.struck, &plain.struck, &record);
        Pair { file, record, proved, plain }
    }

    fn run(&mut self, proved: bool, call: &str, times: u64) {
        if proved {
            self.proved.run(call, &self.file, &self.record, times);
        } else {
            self.plain.run(call, &self.file, &self.record, times);
        }
    }

    /// Nanoseconds of a call, over so many of them.
    fn time(&mut self, proved: bool, call: &str, times: u64) -> f64 {
        let start = Instant::now();
        self.run(proved, call, times);
        start.elapsed().as_nanos() as f64 / times as f64
    }
}

/// And as the matrix has them.
fn expect_residues_alike(proved: &Held, plain: &Session, record: &[u8]) {
    let (mut written, mut other) = ([0; LONGEST_RESIDUES], [0; LONGEST_RESIDUES]);
    proved.residues_into(record, &mut written);
    plain.residues_into(record, &mut other);
    assert_eq!(written, other);
    let shown = plain.figures_shown();
    let parts: Vec<i64> = record[5..].chunks(4).map(|part| i64::from(i32::from_be_bytes(part.try_into().expect("4 bytes")))).collect();
    for (k, residue) in written.chunks(8).enumerate().take(parts.len()) {
        let row: i64 = parts.iter().enumerate().map(|(l, part)| shown.matrix[PARTS * k + l] * part).sum();
        assert_eq!((row - shown.right_hand[k]).to_be_bytes(), residue);
    }
}

/// A line for each round, with the two desks in turn; which is first changes from round to round.
fn compare(last: usize, call: &str, count: usize, mut time: impl FnMut(bool) -> f64) {
    for round in 0..count {
        let first = round % 2 == 0;
        let (a, b) = (time(first), time(!first));
        let (proved, plain) = if first { (a, b) } else { (b, a) };
        println!("{last}\t{call}\t{proved:.1}\t{plain:.1}");
    }
}

fn rounds(count: usize, files: &[String]) {
    for path in files {
        let mut pair = Pair::new(path);
        let last = usize::from(pair.file[5]);
        for call in CALLS {
            let once = pair.time(false, call, 50).max(1.0);
            let times = (ROUND_NANOSECONDS / once) as u64 + 1;
            pair.time(true, call, times); // both are warm before the first round
            pair.time(false, call, times);
            compare(last, call, count, |proved| pair.time(proved, call, times));
        }
    }
}

/// Nanoseconds of one run of a listing program, over a number of runs.
fn time_listing(program: &str, path: &str) -> f64 {
    let start = Instant::now();
    for _ in 0..LISTINGS {
        let file = std::fs::File::open(path).expect("a file of the desk");
        let status = Command::new(program).stdin(file).stdout(Stdio::null()).status().expect("a listing program");
        assert!(status.success());
    }
    start.elapsed().as_nanos() as f64 / f64::from(LISTINGS)
}

fn listings(count: usize, proved: &str, plain: &str, files: &[String]) {
    for path in files {
        let last = std::fs::read(path).expect("a file of the desk")[5];
        compare(usize::from(last), "listing", count, |first| time_listing(if first { proved } else { plain }, path));
    }
}

fn main() {
    let words: Vec<String> = std::env::args().skip(1).collect();
    match words.first().map(String::as_str) {
        Some("rounds") if words.len() > 2 => rounds(words[1].parse().expect("a number of rounds"), &words[2..]),
        Some("listings") if words.len() > 4 => listings(words[1].parse().expect("a number of rounds"), &words[2], &words[3], &words[4..]),
        Some("repeat") if words.len() == 5 => {
            let times = words[3].parse().expect("a number");
            Pair::new(&words[4]).run(words[1] == "proved", &words[2], times);
        }
        _ => panic!("see the head of bench/calls.rs"),
    }
}
