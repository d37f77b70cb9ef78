//! What was compared, by subject.

use std::collections::BTreeMap;
use std::fmt::Debug;
use std::panic::{catch_unwind, AssertUnwindSafe};

#[derive(Clone, Copy, PartialEq)]
pub enum Column {
    /// The call answered as picus does, and every room holds what document 01 says.
    Agreed,
    /// The call refused by 01's number, picus has no answer either, and every room holds what it held.
    Refused,
    /// The call refused by 01's number where picus has no such refusal, and every room holds what 01 says.
    Alone,
    /// picus clamped: no counterexample either way.
    Clamped,
    /// picus did not end within the limit.
    TooLong,
    Failed,
}

const COLUMNS: [&str; 6] = ["agreed", "refused", "refused alone", "clamped", "too long", "failed"];
const MOST_SHOWN: u64 = 10;

#[derive(Default)]
pub struct Tally {
    counts: BTreeMap<&'static str, [u64; 6]>,
}

impl Tally {
    pub fn add(&mut self, subject: &'static str, column: Column, about: impl Debug) {
        self.counts.entry(subject).or_default()[column as usize] += 1;
        if column == Column::Failed && self.of(Column::Failed) <= MOST_SHOWN {
            let mut text = format!("{about:?}");
            text.truncate(2000);
            println!("failed: {subject}: {text}");
        }
    }

    /// `column` where it is right, else failed.
    pub fn expect(&mut self, subject: &'static str, column: Column, right: bool, about: impl Debug) {
        self.add(subject, if right { column } else { Column::Failed }, about);
    }

    pub fn of(&self, column: Column) -> u64 {
        self.counts.values().map(|row| row[column as usize]).sum()
    }

    pub fn print(&self) {
        println!("{:<18}{}", "compared", COLUMNS.map(|name| format!("{name:>15}")).concat());
        for (subject, row) in &self.counts {
            println!("{subject:<18}{}", row.map(|count| format!("{count:>15}")).concat());
        }
    }
}

/// What picus says, or nothing where it panics.
pub fn said<T>(call: impl FnOnce() -> T) -> Option<T> {
    catch_unwind(AssertUnwindSafe(call)).ok()
}

/// Whether the noted build clamps, cuts or panics on the way.
fn is_noted<T>(call: impl FnOnce() -> T) -> bool {
    noted::note::taken();
    let panicked = said(call).is_none();
    panicked | !noted::note::taken().is_empty()
}

/// The value against picus's; the noted build is asked only where they differ.
pub fn judge<T: PartialEq, U>(value: &T, picus: impl FnOnce() -> T, noted: impl FnOnce() -> U) -> Column {
    if said(picus).is_some_and(|other| other == *value) {
        Column::Agreed
    } else if is_noted(noted) {
        Column::Clamped
    } else {
        Column::Failed
    }
}
