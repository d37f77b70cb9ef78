//! The calls of the bridge against picus, in one process: `compare short` for the gate, `compare long [SEED]` for many more lists.
//! docs/COMPARISON.md says what is compared.

#[allow(dead_code)]
mod bridge;
mod dimensions;
mod families;
mod hosts;
mod limit;
mod list;
mod monomials;
mod numerators;
mod random;
mod records;
mod rooms;
mod tally;
mod values;
#[path = "../../bench/workloads.rs"]
#[allow(dead_code)]
mod workloads;

use limit::Limited;
use list::List;
use picus::hilbert::hilbert_numerator;
use random::Random;
use tally::{Column, Tally};

/// The kinds of random lists, and how many of each in the short run.
const KINDS: [(usize, fn(&mut Random) -> List); 10] = [
    (4000, families::mixed),
    (2500, families::artinian),
    (150, families::staircase),
    (200, families::circuit),
    (200, families::wide),
    (40, families::large),
    (60, families::full),
    (600, families::graph),
    (600, families::parts),
    (200, families::many),
];

/// How many times the short run's lists the long run has.
const LONG: usize = 12;

/// Seconds of processor time that picus has for a hard numerator.
const HARD_SECONDS: i64 = 10;

struct Comparison {
    tally: Tally,
    random: Random,
    lists: u64,
}

impl Comparison {
    /// Every call on the list, on a copy in another order and on a damaged one.
    fn list(&mut self, list: &List) {
        let record = self.once(list);
        let other = records::shuffled(&mut self.random, list);
        records::same(&mut self.tally, list, &other, &record);
        let (_, coefficients, _) = numerators::called(list, 0);
        let (_, found, right) = numerators::called(&other, 0);
        self.tally.expect("same ideal", Column::Agreed, right && found == coefficients, (list, &other));
        let damaged = families::damaged(&mut self.random, list);
        self.once(&damaged);
    }

    /// Every call on the list; its record.
    fn once(&mut self, list: &List) -> Vec<u8> {
        let Comparison { tally, random, lists } = self;
        *lists += 1;
        let coefficients = numerators::numerator(tally, random, list);
        numerators::update(tally, random, list, &coefficients);
        if random.below(4) == 0 {
            numerators::any_given(tally, random, list);
        }
        dimensions::dimension(tally, random, list, false);
        if coefficients.len() < 2000 {
            let d = random.below(coefficients.len() + 4) as u64;
            values::hf_at(tally, list.n as u64, &coefficients, d, 4 * (d + 1));
        }
        if list.s > 0 {
            let (j, k) = (random.below(list.s), random.below(list.s));
            monomials::pair(tally, random, list.at(j), list.at(k));
        }
        let record = records::write(tally, random, list);
        for bytes in [record.clone(), records::damaged(random, &record)] {
            records::read(tally, random, &bytes);
            hosts::host(tally, random, &bytes);
        }
        record
    }

    /// Widths, counts and cells past the limits.
    fn refusals(&mut self) {
        let cells = [1u16; 600];
        for (s0, s1) in [(30, 31), (1, 60), (60, 1), (1 << 63, 1 << 63), (u64::MAX, 1)] {
            numerators::too_many(&mut self.tally, s0, s1);
        }
        for n in [0, 1, 2, 9, 255, 256, 300, 1 << 32, 1 << 63, u64::MAX] {
            for s in [0, 1, 2, 59, 60, 61, 64, 1 << 32, 1 << 63, u64::MAX] {
                for len in [0, 1, 2, 60, 61, 120, 255, 256, 510, 540] {
                    numerators::refused(&mut self.tally, n, s, &cells[..len]);
                }
            }
        }
    }

    fn values(&mut self, count: usize) {
        for _ in 0..count {
            values::anywhere(&mut self.tally, &mut self.random);
            values::at_the_bound(&mut self.tally, &mut self.random);
            monomials::any_mask(&mut self.tally, &mut self.random);
        }
    }

    /// A list on which picus may not end: its numerator alone, within a limit.
    fn hard(&mut self, list: &List) {
        self.lists += 1;
        let (number, coefficients, right) = numerators::called(list, 0);
        let bytes: Vec<u8> = coefficients.iter().flat_map(|x| x.to_le_bytes()).collect();
        let said = limit::within(HARD_SECONDS, || {
            hilbert_numerator(&list.picus()).coeffs().iter().flat_map(|x| x.to_le_bytes()).collect()
        });
        let column = match said {
            Limited::Done(other) if other == bytes => Column::Agreed,
            Limited::TooLong => Column::TooLong,
            _ => Column::Failed,
        };
        self.tally.expect("hard numerator", column, right, (list, number));
    }

    /// Lists of the benchmark.
    fn hard_lists(&mut self, long: bool) {
        for k in 0..if long { 100 } else { 5 } {
            let random = &mut Random::of(1000 + k);
            let mut lists =
                vec![workloads::products(random, 60), workloads::generic(random, 60), workloads::edges(random, 60)];
            if long && k < 10 {
                lists.extend([
                    workloads::squares(random),
                    workloads::regular(random, 22),
                    workloads::wide(random, 30),
                    workloads::wide(random, 60),
                ]);
            }
            lists.iter().for_each(|list| self.hard(list));
        }
    }

    /// Top degrees on which picus takes long.
    fn slow_dimensions(&mut self) {
        for powers in [[32769, 32769], [32768, 32769], [30000, 5000], [1, 65535], [40, 40000]] {
            for more in [vec![], vec![vec![powers[0] / 2, powers[1] / 3]]] {
                let list = List::of(2, &[families::pure(&powers), more].concat());
                dimensions::dimension(&mut self.tally, &mut self.random, &list, true);
            }
        }
    }
}

fn compared(long: bool, seed: u64) -> Comparison {
    let mut all = Comparison { tally: Tally::default(), random: Random::of(seed), lists: 0 };
    let scale = if long { LONG } else { 1 };
    all.refusals();
    for list in families::tiny(long).iter().chain(&families::limits()) {
        all.list(list);
    }
    for (count, one) in KINDS {
        for _ in 0..count * scale {
            let list = one(&mut all.random);
            all.list(&list);
        }
    }
    all.values(3000 * scale);
    all.hard_lists(long);
    if long {
        all.slow_dimensions();
    }
    all
}

fn main() {
    std::panic::set_hook(Box::new(|_| {}));
    let words: Vec<String> = std::env::args().skip(1).collect();
    let seed = words.get(1).map_or(20, |word| word.parse().expect("the seed is a number"));
    let all = compared(words.first().is_some_and(|word| word == "long"), seed);
    all.tally.print();
    let passed =
        [Column::Agreed, Column::Refused, Column::Alone].map(|column| all.tally.of(column)).iter().sum::<u64>();
    let failed = all.tally.of(Column::Failed);
    println!("compare: {} lists, {passed} passed, {failed} failed", all.lists);
    std::process::exit((failed > 0) as i32);
}
