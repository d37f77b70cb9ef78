//! The lists that are timed, each from a fixed seed.

use crate::list::List;
use crate::random::Random;

/// What a time is held to.
#[derive(Clone, Copy)]
pub enum Asked {
    /// At least so many times as fast as the Rust where that ends.
    Times(f64),
    /// At most so many milliseconds.
    Milliseconds(f64),
}

/// A list, and what its time is held to.
pub struct Workload {
    pub name: String,
    pub list: List,
    pub asked: Asked,
}

fn spread(n: usize, variables: &[usize], exponents: impl Fn(usize) -> u16) -> Vec<u16> {
    let mut monomial = vec![0; n];
    for (i, &v) in variables.iter().enumerate() {
        monomial[v] = exponents(i);
    }
    monomial
}

fn square_free(random: &mut Random, n: usize, low: usize, high: usize) -> Vec<u16> {
    let k = random.from(low, high);
    spread(n, &random.sample(n, k), |_| 1)
}

/// n = 40, the square of each variable and 20 products of 2 to 4 of them.
pub fn squares(random: &mut Random) -> List {
    let mut all: Vec<Vec<u16>> = (0..40).map(|v| spread(40, &[v], |_| 2)).collect();
    all.extend((0..20).map(|_| square_free(random, 40, 2, 4)));
    List::of(40, &all)
}

/// n = 20, products of 3 to 5 variables.
pub fn products(random: &mut Random, s: usize) -> List {
    List::of(20, &(0..s).map(|_| square_free(random, 20, 3, 5)).collect::<Vec<_>>())
}

/// n = 10, exponents 0 to 9.
pub fn generic(random: &mut Random, s: usize) -> List {
    List { n: 10, s, cells: (0..10 * s).map(|_| random.below(10) as u16).collect() }
}

/// n = 30, different edges.
pub fn edges(random: &mut Random, s: usize) -> List {
    let pairs: Vec<[usize; 2]> = (0..30).flat_map(|i| (0..i).map(move |j| [j, i])).collect();
    let chosen = random.sample(pairs.len(), s);
    List::of(30, &chosen.iter().map(|&k| spread(30, &pairs[k], |_| 1)).collect::<Vec<_>>())
}

/// n = 255, products of three variables.
pub fn wide(random: &mut Random, s: usize) -> List {
    List::of(255, &(0..s).map(|_| square_free(random, 255, 3, 3)).collect::<Vec<_>>())
}

/// n = 255, powers of three variables each, exponents 1 to 3.
pub fn wide_powers(random: &mut Random, s: usize) -> List {
    let monomial = |random: &mut Random| {
        let variables = random.sample(255, 3);
        let exponents: Vec<u16> = (0..3).map(|_| random.from(1, 3) as u16).collect();
        spread(255, &variables, |i| exponents[i])
    };
    List::of(255, &(0..s).map(|_| monomial(random)).collect::<Vec<_>>())
}

/// A variable for each edge and a monomial for each vertex.
fn graph(vertices: usize, edges: &[[usize; 2]]) -> List {
    let mut all = vec![vec![0; edges.len()]; vertices];
    for (e, ends) in edges.iter().enumerate() {
        all[ends[0]][e] = 1;
        all[ends[1]][e] = 1;
    }
    List::of(edges.len(), &all)
}

pub fn complete(vertices: usize) -> List {
    let edges: Vec<[usize; 2]> = (0..vertices).flat_map(|i| (0..i).map(move |j| [j, i])).collect();
    graph(vertices, &edges)
}

/// Each vertex three times in a random order, paired; again where an edge is a loop or stands twice.
pub fn regular(random: &mut Random, vertices: usize) -> List {
    loop {
        let mut ends: Vec<usize> = (0..3 * vertices).map(|i| i / 3).collect();
        random.shuffle(&mut ends);
        let mut edges: Vec<[usize; 2]> = ends.chunks(2).map(|p| [p[0].min(p[1]), p[0].max(p[1])]).collect();
        edges.sort_unstable();
        edges.dedup();
        if edges.len() == 3 * vertices / 2 && edges.iter().all(|e| e[0] != e[1]) {
            return graph(vertices, &edges);
        }
    }
}

/// s monomials in 4 to 8 variables with exponents up to 3: what a solver asks.
pub fn small(random: &mut Random, s: usize) -> List {
    let n = random.from(4, 8);
    let exponent = |random: &mut Random| if random.below(2) == 0 { 0 } else { random.from(1, 3) as u16 };
    List { n, s, cells: (0..n * s).map(|_| exponent(random)).collect() }
}

/// The squares of 3 to 6 variables and products of two, s monomials in all.
pub fn small_artinian(random: &mut Random, s: usize) -> List {
    let n = random.from(3, s.min(6));
    let mut all: Vec<Vec<u16>> = (0..n).map(|v| spread(n, &[v], |_| 2)).collect();
    all.extend((n..s).map(|_| square_free(random, n, 2, 2)));
    random.shuffle(&mut all);
    List::of(n, &all)
}

/// The squares of 12 variables and products of two or three, s monomials in all: as much as the host call's rooms take.
pub fn circuit(random: &mut Random, s: usize) -> List {
    let mut all: Vec<Vec<u16>> = (0..12).map(|v| spread(12, &[v], |_| 2)).collect();
    all.extend((12..s).map(|_| square_free(random, 12, 2, 3)));
    List::of(12, &all)
}

/// Lists of any of these kinds, where every system ends soon.
pub fn any(random: &mut Random) -> List {
    let s = random.from(2, 25);
    match random.below(6) {
        0 => small(random, s.min(12)),
        1 => products(random, s),
        2 => generic(random, s),
        3 => edges(random, s),
        4 => wide(random, s.min(14)),
        _ => small_artinian(random, s.clamp(3, 12)),
    }
}

/// Workloads (a) to (f) and the 3-regular graphs.
pub fn numerators() -> Vec<Workload> {
    let mut all = Vec::new();
    let mut add = |name: String, list: List, asked: Asked| all.push(Workload { name, list, asked });
    let seeds = |first: u64| (1..=5).map(move |k| (k, Random::of(first + k)));
    seeds(100).for_each(|(k, mut random)| add(format!("a{k}"), squares(&mut random), Asked::Times(5.0)));
    seeds(200).for_each(|(k, mut random)| add(format!("b{k}"), products(&mut random, 60), Asked::Times(2.0)));
    seeds(300).for_each(|(k, mut random)| add(format!("c{k}"), generic(&mut random, 60), Asked::Times(2.0)));
    seeds(400).for_each(|(k, mut random)| add(format!("d{k}"), edges(&mut random, 60), Asked::Times(2.0)));
    seeds(500).for_each(|(k, mut random)| add(format!("e{k}"), wide(&mut random, 60), Asked::Milliseconds(100.0)));
    (11..=13).for_each(|k| add(format!("K{k}"), complete(k), Asked::Times(2.0)));
    for k in [24, 26, 28, 30] {
        add(format!("3-regular {k}"), regular(&mut Random::of(600 + k as u64), k), Asked::Times(2.0));
    }
    all
}

/// 41 monomials of each kind, the last one new; of the first kind all products and the squares of the last variables.
pub fn updates() -> Vec<(String, List)> {
    let mut all = Vec::new();
    for k in 1..=3 {
        let random = &mut Random::of(900 + k);
        all.push((format!("a{k}, 40 and 1"), squares(random).parted(19).1));
        all.push((format!("b{k}, 40 and 1"), products(random, 41)));
        all.push((format!("c{k}, 40 and 1"), generic(random, 41)));
        all.push((format!("d{k}, 40 and 1"), edges(random, 41)));
        all.push((format!("e{k}, 40 and 1"), wide(random, 41)));
    }
    all
}
