//! The printed rows, and what they are held to.

use crate::clock;
use crate::limit::{within, Limited};
use crate::workloads::Asked;

/// Seconds of processor time that picus has for a list.
pub const LIMIT_SECONDS: i64 = 20;

/// Nanoseconds below which picus is timed in turn with ours.
const QUICK: f64 = 1e8;

#[derive(Default)]
pub struct Table {
    missed: Vec<String>,
}

/// Nanoseconds of ours and of picus: in turn where picus is quick, and otherwise each by itself.
pub fn both(
    seconds: i64,
    ours: impl FnMut(),
    mut rust: impl FnMut(),
    same: impl FnOnce() -> bool,
) -> (f64, Option<f64>) {
    match self::rust(seconds, &mut rust, same) {
        Some(time) if time < QUICK => {
            let (ours, rust) = clock::in_turn(ours, rust);
            (ours, Some(rust))
        }
        alone => (clock::median(ours), alone),
    }
}

/// picus's nanoseconds, where it ends within so many seconds of processor time; its answer must be the same as ours.
fn rust(seconds: i64, call: impl FnMut(), same: impl FnOnce() -> bool) -> Option<f64> {
    let timed = || {
        let time = clock::median(call);
        assert!(same(), "the Rust has another answer");
        time.to_le_bytes().to_vec()
    };
    match within(seconds, timed) {
        Limited::Done(bytes) => Some(f64::from_le_bytes(bytes.try_into().expect("eight bytes"))),
        Limited::TooLong => None,
        Limited::Failed => panic!("the Rust has another answer, or none"),
    }
}

impl Table {
    pub fn head(&self, what: &str) {
        println!("\n{what:<20} {:>3} {:>3} {:>12} {:>14} {:>9}", "n", "s", "ours us", "Rust us", "ratio");
    }

    pub fn row(&mut self, name: &str, n: usize, s: usize, ours: f64, rust: Option<f64>, asked: Asked) {
        let met = match asked {
            Asked::Times(times) => rust.is_none_or(|rust| rust >= times * ours),
            Asked::Milliseconds(most) => ours <= most * 1e6,
        };
        let (rust_text, ratio) = match rust {
            Some(rust) => (format!("{:.2}", rust / 1000.0), format!("{:.2}", rust / ours)),
            None => (format!("> {LIMIT_SECONDS} s"), String::new()),
        };
        let mark = if met { "" } else { "  MISSED" };
        println!("{name:<20} {n:>3} {s:>3} {:>12.2} {rust_text:>14} {ratio:>9}{mark}", ours / 1000.0);
        if !met {
            self.missed.push(format!("{name} (s = {s})"));
        }
    }

    pub fn end(&self) {
        match self.missed.len() {
            0 => println!("\nbench: every row is what is asked"),
            _ => println!("\nbench: missed: {}", self.missed.join(", ")),
        }
    }
}
