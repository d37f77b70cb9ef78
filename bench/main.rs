//! Times of the bridge's calls and of picus on the same lists, in one process; docs/BENCHMARKS.md says how to run it.
//!
//! `bench`            every table
//! `bench TABLE..`    some of them: small, dimensions, host, updates, numerators
//! `bench plot FILE`  the plot of time against size
//! `bench lists`      the lists of the first table, one a line with its time and numerator; `bench lists 500` random ones
//! `bench once KIND K` each list of a kind once by either side, for a count of instructions

#[path = "../tests/compare/bridge.rs"]
#[allow(dead_code)]
mod bridge;
mod clock;
#[path = "../tests/compare/limit.rs"]
mod limit;
#[path = "../tests/compare/list.rs"]
#[allow(dead_code)]
mod list;
mod plot;
mod prepared;
#[path = "../tests/compare/random.rs"]
#[allow(dead_code)]
mod random;
mod table;
mod workloads;

use list::List;
use plot::Line;
use prepared::{Call, Prepared, Rooms, Update, DIMENSION, HOST, NUMERATOR};
use random::Random;
use table::{Table, LIMIT_SECONDS};
use workloads::Asked;

type Kind = fn(&mut Random, usize) -> List;

/// How many small lists a row takes.
const SMALL: usize = 500;

/// Seconds that picus has for a point of the plot.
const POINT_SECONDS: i64 = 5;

fn our_time(p: &Prepared, call: Call) -> f64 {
    let mut rooms = p.rooms();
    clock::median(|| (call.ours)(p, &mut rooms))
}

fn both(p: &Prepared, call: Call, seconds: i64) -> (f64, Option<f64>) {
    let mut rooms = p.rooms();
    table::both(seconds, || (call.ours)(p, &mut rooms), || (call.rust)(p), || (call.same)(p, &mut p.rooms()))
}

fn row(table: &mut Table, name: &str, list: List, call: Call, asked: Asked) {
    let p = Prepared::of(list);
    let (ours, rust) = both(&p, call, LIMIT_SECONDS);
    table.row(name, p.list.n, p.list.s, ours, rust, asked);
}

fn numerators(table: &mut Table) {
    table.head("numerator");
    for w in workloads::numerators() {
        row(table, &w.name, w.list, NUMERATOR, w.asked);
    }
}

fn small_lists(kind: Kind, seed: u64, s: usize) -> Vec<Prepared> {
    let mut random = Random::of(seed + s as u64);
    (0..SMALL).map(|_| Prepared::of(kind(&mut random, s))).collect()
}

/// A row for each count from 3 to 10, the time a list.
fn small_rows(table: &mut Table, name: &str, kind: Kind, seed: u64, call: Call, asked: Asked) {
    for s in 3..=10 {
        let all = small_lists(kind, seed, s);
        let mut rooms = Rooms::of_all(&all);
        assert!(all.iter().all(|p| (call.same)(p, &mut rooms)), "the Rust has another answer");
        let ours = || all.iter().for_each(|p| (call.ours)(p, &mut rooms));
        let (ours, rust) = clock::in_turn(ours, || all.iter().for_each(call.rust));
        let n = all.iter().map(|p| p.list.n).max().unwrap_or(0);
        table.row(name, n, s, ours / SMALL as f64, Some(rust / SMALL as f64), asked);
    }
}

fn small(table: &mut Table) {
    table.head("small lists");
    small_rows(table, "numerator", workloads::small, 700, NUMERATOR, Asked::Times(2.0));
    small_rows(table, "numerator, squares", workloads::small_artinian, 800, NUMERATOR, Asked::Times(2.0));
    small_rows(table, "dimension, squares", workloads::small_artinian, 800, DIMENSION, Asked::Times(2.0));
    small_rows(table, "numerator, edges", workloads::edges, 730, NUMERATOR, Asked::Times(2.0));
    small_rows(table, "numerator, wide", workloads::wide, 750, NUMERATOR, Asked::Times(2.0));
    small_rows(table, "wide, exponents", workloads::wide_powers, 750, NUMERATOR, Asked::Times(2.0));
}

fn dimensions(table: &mut Table) {
    table.head("dimension");
    for w in workloads::numerators().into_iter().filter(|w| w.name.starts_with('a')) {
        row(table, &w.name, w.list, DIMENSION, w.asked);
    }
    for s in [14, 17, 20, 30, 40] {
        row(table, "circuit", workloads::circuit(&mut Random::of(850 + s as u64), s), DIMENSION, Asked::Times(2.0));
    }
}

fn host(table: &mut Table) {
    table.head("host call");
    small_rows(table, "squares", workloads::small_artinian, 800, HOST, Asked::Times(2.0));
    for s in [14, 17, 20] {
        row(table, "circuit", workloads::circuit(&mut Random::of(850 + s as u64), s), HOST, Asked::Times(2.0));
    }
}

fn updates(table: &mut Table) {
    table.head("update");
    for (name, list) in workloads::updates() {
        let u = Update::of(list);
        let mut rooms = u.rooms();
        let ours = || {
            u.update(&mut rooms);
        };
        let rust = || {
            u.rust_update();
        };
        let (ours, rust) = table::both(LIMIT_SECONDS, ours, rust, || u.is_same());
        table.row(&name, u.list.n, u.list.s, ours, rust, Asked::Times(1.0));
    }
}

fn middle(mut times: Vec<f64>) -> f64 {
    times.sort_by(f64::total_cmp);
    times[times.len() / 2]
}

/// Both times for lists of one kind and size, each the median of three lists; none for picus where it does not end on one of them.
fn point(kind: Kind, s: usize, with_rust: bool) -> (f64, Option<f64>) {
    let (mut ours, mut rust) = (Vec::new(), Vec::new());
    for k in 0..3 {
        let p = Prepared::of(kind(&mut Random::of(2000 + k), s));
        let (our_time, rust_time) = match with_rust && rust.len() == ours.len() {
            true => both(&p, NUMERATOR, POINT_SECONDS),
            false => (our_time(&p, NUMERATOR), None),
        };
        ours.push(our_time);
        rust.extend(rust_time);
    }
    let rust = (rust.len() == 3).then(|| middle(rust));
    (middle(ours), rust)
}

fn plotted() -> String {
    let kinds: [(&str, &str, Kind); 4] = [
        ("b: n = 20, products", "#1b6ca8", workloads::products),
        ("c: n = 10, generic", "#c0392b", workloads::generic),
        ("d: n = 30, edges", "#27803b", workloads::edges),
        ("e: n = 255, triples", "#8e44ad", workloads::wide),
    ];
    let mut lines = Vec::new();
    for (name, colour, kind) in kinds {
        let (mut ours, mut rust) = (Vec::new(), Vec::new());
        for s in (5..=60).step_by(5) {
            let (our_time, rust_time) = point(kind, s, rust.len() == ours.len());
            ours.push((s, our_time));
            rust.extend(rust_time.map(|time| (s, time)));
        }
        lines.push(Line { name: name.to_string(), colour, dashed: false, points: ours });
        lines.push(Line { name: "the Rust".to_string(), colour, dashed: true, points: rust });
    }
    plot::svg(&lines)
}

/// A list a line: name, width, count, cells, nanoseconds, and the numerator after its length.
fn lists(random_ones: usize) {
    let mut all: Vec<(String, List)> = Vec::new();
    if random_ones == 0 {
        all.extend(workloads::numerators().into_iter().map(|w| (w.name.replace(' ', "-"), w.list)));
    }
    let mut random = Random::of(3000);
    all.extend((0..random_ones).map(|k| (format!("r{k}"), workloads::any(&mut random))));
    for (name, list) in all {
        let p = Prepared::of(list);
        let time = our_time(&p, NUMERATOR);
        let answer = p.numerator(&mut p.rooms()).to_vec();
        let text = |values: Vec<String>| values.join(" ");
        let cells = text(p.list.cells.iter().map(u16::to_string).collect());
        let coefficients = text(answer.iter().map(i64::to_string).collect());
        println!("{name} {} {} {cells} {time:.0} {} {coefficients}", p.list.n, p.list.s, answer.len());
    }
}

fn once(kind: &str, k: usize) {
    let each = |kind: Kind, seed: u64, call: Call| {
        let all = small_lists(kind, seed, k);
        let mut rooms = Rooms::of_all(&all);
        assert!(all.iter().all(|p| (call.same)(p, &mut rooms)));
    };
    match kind {
        "small" => each(workloads::small, 700, NUMERATOR),
        "edges" => each(workloads::edges, 730, NUMERATOR),
        "wide" => each(workloads::wide, 750, NUMERATOR),
        "powers" => each(workloads::wide_powers, 750, NUMERATOR),
        "squares" => each(workloads::small_artinian, 800, DIMENSION),
        "host" => each(workloads::small_artinian, 800, HOST),
        "update" => {
            assert!(Update::of(workloads::updates().swap_remove(k).1).is_same());
        }
        _ => {
            let p = Prepared::of(workloads::numerators().swap_remove(k).list);
            assert!((NUMERATOR.same)(&p, &mut p.rooms()));
        }
    }
}

fn main() {
    let words: Vec<String> = std::env::args().skip(1).collect();
    let word = |k: usize| words.get(k).map(String::as_str);
    let number = |k: usize| word(k).map_or(0, |text| text.parse().expect("a number"));
    match word(0) {
        Some("lists") => return lists(number(1)),
        Some("once") => return once(&words[1], number(2)),
        Some("plot") => return std::fs::write(&words[1], plotted()).expect("the plot can be written"),
        _ => {}
    }
    let tables: [(&str, fn(&mut Table)); 5] = [
        ("small", small),
        ("dimensions", dimensions),
        ("host", host),
        ("updates", updates),
        ("numerators", numerators),
    ];
    let mut table = Table::default();
    for (name, print) in tables {
        if words.is_empty() || words.iter().any(|w| w == name) {
            print(&mut table);
        }
    }
    table.end();
}
