//! The listing program over the plain desk.
#![forbid(unsafe_code)]

mod safe_desk;

use safe_desk::{Session, Sweeping};
use std::fmt::Write as _;
use std::io::{Read, Write};

fn list(file: &[u8]) -> String {
    let mut session = Session::empty();
    if let Err(refusal) = session.open(file) {
        return format!("refused {} at {}\n", refusal.number, refusal.place);
    }
    let Ok(Sweeping::Settled(total)) = session.sweep(4096) else {
        return "spent 4096\n".to_string();
    };
    let last = session.last();
    let (mean, _) = session.kept();
    let mut text = format!("J {last}\nsweeps {total}\n");
    for (k, part) in mean.iter().enumerate().take(2 * last + 1) {
        let (name, index) = if k <= last { ("phi", k) } else { ("psi", k - last - 1) };
        writeln!(text, "{name} {index} {part}").expect("a string takes all");
    }
    text
}

fn main() {
    let mut file = Vec::new();
    std::io::stdin().take(2807).read_to_end(&mut file).expect("standard input");
    std::io::stdout().write_all(list(&file).as_bytes()).expect("standard output");
}
