//! Lists to compare: the tiny ones all, around each limit, and random ones of several kinds.

use crate::list::List;
use crate::random::Random;

/// All monomials in n variables with exponents up to `most`.
fn cube(n: usize, most: u16) -> Vec<Vec<u16>> {
    (0..n).fold(vec![Vec::new()], |all, _| {
        all.iter().flat_map(|m| (0..=most).map(|x| [&m[..], &[x]].concat()).collect::<Vec<_>>()).collect()
    })
}

/// All lists of s monomials of the cube, in every order and with repetitions.
fn sequences(n: usize, most: u16, s: usize) -> Vec<List> {
    let cube = cube(n, most);
    let count = cube.len().pow(s as u32);
    let digit = |k: usize, i: usize| k / cube.len().pow(i as u32) % cube.len();
    (0..count).map(|k| List::of(n, &(0..s).map(|i| cube[digit(k, i)].clone()).collect::<Vec<_>>())).collect()
}

/// All sets of s monomials of the cube.
fn sets(n: usize, most: u16, s: usize) -> Vec<List> {
    let cube = cube(n, most);
    let mut all = Vec::new();
    let mut chosen: Vec<usize> = (0..s).collect();
    loop {
        all.push(List::of(n, &chosen.iter().map(|&k| cube[k].clone()).collect::<Vec<_>>()));
        let Some(i) = (0..s).rev().find(|&i| chosen[i] < cube.len() - s + i) else { return all };
        chosen[i] += 1;
        for j in i + 1..s {
            chosen[j] = chosen[j - 1] + 1;
        }
    }
}

/// Every list of a few monomials in a few variables with small exponents.
pub fn tiny(long: bool) -> Vec<List> {
    let mut all: Vec<List> = (0..=60).map(|s| List { n: 0, s, cells: Vec::new() }).collect();
    for s in 0..=3 {
        all.extend(sequences(1, 4, s));
        all.extend(sequences(2, 2, s));
        all.extend(sequences(3, 1, s));
    }
    all.extend(sets(2, 3, 4));
    if long {
        all.extend(sequences(2, 3, 3));
        all.extend(sequences(3, 2, 2));
        all.extend(sets(3, 2, 3));
        all.extend(sets(4, 1, 5));
        all.extend(sets(2, 4, 4));
        all.extend(sets(3, 1, 6));
    }
    all
}

pub fn spread(n: usize, variables: &[usize], exponents: &[u16]) -> Vec<u16> {
    let mut monomial = vec![0; n];
    for (&v, &x) in variables.iter().zip(exponents) {
        monomial[v] = x;
    }
    monomial
}

pub fn pure(powers: &[u16]) -> Vec<Vec<u16>> {
    (0..powers.len()).map(|v| spread(powers.len(), &[v], &[powers[v]])).collect()
}

/// Exponents from 1 to `most`, each there with so many chances in ten.
fn monomial(random: &mut Random, n: usize, most: usize, tenths: usize) -> Vec<u16> {
    (0..n).map(|_| if random.below(10) < tenths { random.from(1, most) as u16 } else { 0 }).collect()
}

fn monomials(random: &mut Random, n: usize, s: usize, most: usize, tenths: usize) -> Vec<Vec<u16>> {
    (0..s).map(|_| monomial(random, n, most, tenths)).collect()
}

pub fn mixed(random: &mut Random) -> List {
    let (n, s) = (random.from(1, 6), random.from(1, 8));
    let (most, tenths) = (random.one_of(&[1, 2, 3, 5, 9]), random.one_of(&[3, 6, 9]));
    List::of(n, &monomials(random, n, s, most, tenths))
}

/// A pure power of every variable, in any order, some of them twice.
pub fn artinian(random: &mut Random) -> List {
    let n = random.from(1, 5);
    let powers: Vec<u16> = (0..n).map(|_| random.from(1, 7) as u16).collect();
    let more: Vec<u16> = (0..n).map(|_| random.from(1, 9) as u16).collect();
    let mut all = pure(&powers);
    let s = random.below(7);
    all.extend(monomials(random, n, s, 6, 6));
    let twice = random.below(n + 1);
    all.extend(pure(&more).into_iter().take(twice));
    random.shuffle(&mut all);
    List::of(n, &all)
}

/// Larger pure powers, with a few monomials between them: dimensions up to some millions.
pub fn staircase(random: &mut Random) -> List {
    let n = random.from(2, 4);
    let mut all = pure(&(0..n).map(|_| random.from(5, 40) as u16).collect::<Vec<_>>());
    let s = random.below(6);
    all.extend(monomials(random, n, s, 25, 6));
    List::of(n, &all)
}

/// Small powers of every variable and a few products of two or three: what circuits give.
pub fn circuit(random: &mut Random) -> List {
    let n = random.from(6, 12);
    let mut all = pure(&(0..n).map(|_| random.one_of(&[2, 2, 3])).collect::<Vec<_>>());
    for _ in 0..random.from(1, 6) {
        let chosen = random.sample(n, 3);
        all.push(spread(n, &chosen, &[1, 1, random.below(2) as u16]));
    }
    List::of(n, &all)
}

/// Width up to 255, few variables used.
pub fn wide(random: &mut Random) -> List {
    let n = random.one_of(&[32, 33, 60, 127, 128, 129, 254, 255]);
    let used = random.sample(n, 5);
    let s = random.from(1, 8);
    List::of(n, &(0..s).map(|_| spread(n, &used, &monomial(random, 5, 3, 5))).collect::<Vec<_>>())
}

/// Few monomials with exponents up to 65,535: the polynomials are long and nearly empty.
pub fn large(random: &mut Random) -> List {
    const EXPONENTS: [u16; 13] = [0, 0, 0, 1, 1, 2, 3, 255, 256, 32767, 32768, 65534, 65535];
    let (n, s) = (random.from(1, 3), random.from(1, 4));
    List::of(n, &(0..s).map(|_| (0..n).map(|_| random.one_of(&EXPONENTS)).collect()).collect::<Vec<_>>())
}

/// 58 to 60 monomials in few variables.
pub fn full(random: &mut Random) -> List {
    let (n, s) = (random.from(1, 5), random.from(58, 60));
    let most = random.one_of(&[3, 6, 9]);
    List::of(n, &monomials(random, n, s, most, 6))
}

/// Graphs with a variable for each vertex, and with one for each edge.
pub fn graph(random: &mut Random) -> List {
    let vertices = random.from(3, 9);
    let pairs: Vec<[usize; 2]> = (0..vertices).flat_map(|i| (0..i).map(move |j| [j, i])).collect();
    let count = random.from(2, pairs.len().min(14));
    let edges: Vec<[usize; 2]> = random.sample(pairs.len(), count).into_iter().map(|k| pairs[k]).collect();
    if random.below(2) == 0 {
        return List::of(vertices, &edges.iter().map(|e| spread(vertices, e, &[1, 1])).collect::<Vec<_>>());
    }
    let ends = |v: usize| (0..count).map(|e| edges[e].contains(&v) as u16).collect();
    List::of(count, &(0..vertices).map(ends).collect::<Vec<_>>())
}

/// Parts without a common variable, as the engine looks for them, and single monomials beside them.
pub fn parts(random: &mut Random) -> List {
    let (count, each) = (random.from(2, 4), random.from(1, 3));
    let n = count * each + random.below(2);
    let mut all = Vec::new();
    for p in 0..count {
        let used: Vec<usize> = (p * each..(p + 1) * each).collect();
        for _ in 0..random.from(1, 4) {
            all.push(spread(n, &used, &monomial(random, each, 3, 7)));
        }
    }
    random.shuffle(&mut all);
    List::of(n, &all)
}

/// 15 to 30 monomials, more than what the engine calls few, where picus still ends soon.
pub fn many(random: &mut Random) -> List {
    let (n, s) = (random.from(4, 8), random.from(15, 30));
    let (most, tenths) = (random.one_of(&[1, 2, 4]), random.one_of(&[3, 4, 5]));
    List::of(n, &monomials(random, n, s, most, tenths))
}

/// A list with one exponent changed, or a monomial left out or turned into the unit.
pub fn damaged(random: &mut Random, list: &List) -> List {
    let mut all = list.monomials();
    if all.is_empty() {
        return list.clone();
    }
    let k = random.below(all.len());
    match random.below(6) {
        0 => {
            all.remove(k);
        }
        1 if random.below(4) == 0 => all[k].fill(0),
        _ if list.n > 0 => {
            let v = random.below(list.n);
            all[k][v] = if random.below(2) == 0 { all[k][v].saturating_add(1) } else { all[k][v].saturating_sub(1) };
        }
        _ => {}
    }
    List::of(list.n, &all)
}

/// Named lists at the limits of width, count and exponents.
pub fn limits() -> Vec<List> {
    let of = |n: usize, all: Vec<Vec<u16>>| List::of(n, &all);
    let cycle = |n: usize| (0..n).map(|v| spread(n, &[v, (v + 1) % n], &[1, 1])).collect::<Vec<_>>();
    vec![
        of(60, pure(&[2; 60])),
        of(60, pure(&[1; 60])),
        of(20, pure(&[2; 20])),
        of(21, pure(&[2; 21])),
        of(255, vec![vec![0; 255]; 60]),
        of(255, Vec::new()),
        of(254, vec![vec![1; 254]]),
        of(255, vec![vec![257; 255]]),
        of(1, vec![vec![65535]]),
        of(1, vec![vec![65535], vec![65534]]),
        of(1, vec![vec![2048]]),
        of(2, vec![vec![65535, 0], vec![1, 0]]),
        of(2, (0..60).map(|k| vec![k, 59 - k]).collect()),
        of(2, (0..60).map(|k| vec![600 * k, 600 * (59 - k)]).collect()),
        of(3, (0..10).flat_map(|a| (0..10 - a).map(move |b| vec![a, b, 9 - a - b])).collect()),
        of(10, cycle(10)),
        of(12, cycle(12)),
        of(13, pure(&[&[1024; 2][..], &[2; 11]].concat())),
        of(60, pure(&[&[4; 53][..], &[2; 7]].concat())),
        of(60, pure(&[&[4; 54][..], &[8; 6]].concat())),
        of(60, pure(&[&[4; 53][..], &[8; 6], &[7]].concat())),
        of(60, pure(&[&[4; 53][..], &[8; 7]].concat())),
        of(60, pure(&[&[4; 53][..], &[8; 6], &[9]].concat())),
        of(2, pure(&[32770, 32769])),
        of(2, pure(&[65535, 65535])),
        of(2, [pure(&[300, 200]), vec![vec![150, 100]]].concat()),
        of(255, (0..60).map(|k| spread(255, &[4 * k, 4 * k + 1, 4 * k + 2, 4 * k + 3], &[1; 4])).collect()),
        of(255, (0..12).map(|k| spread(255, &[2 * k, 2 * k + 1, 2 * k + 2], &[1; 3])).collect()),
        of(255, (0..60).map(|k| spread(255, &[254 - k], &[k as u16 + 1])).collect()),
    ]
}
