// Times the flip step as Rattle compiles it against the same loop in Rust, on
// the same clauses, in one run. README.md beside this file says more.
use std::process::ExitCode;
use std::time::Instant;

#[allow(dead_code)]
mod walk;

use walk::{Line, Pair};

const VARIABLES: u32 = 64;
// Flips in a walk. A flip step finds each.
const FLIPS: u32 = 4;
const ROUNDS: usize = 15;
const PLACES: usize = 4;
const LIMIT: f64 = 1.2;

// The clauses, how many, the variables, how many flips, and the assignment.
type Walk<C> = unsafe extern "C" fn(*const C, usize, u32, u32, &mut u64) -> bool;

// `run` links each function at four places.
macro_rules! places {
    ($clause:ty: $($name:ident),*) => {{
        unsafe extern "C" {
            $(fn $name(clauses: *const $clause, count: usize, n: u32, most: u32, word: &mut u64) -> bool;)*
        }
        [$($name as Walk<$clause>),*]
    }};
}

// One way to walk: at each place, and over which clauses.
struct Way<'a, C> {
    walks: [Walk<C>; PLACES],
    clauses: &'a [C],
}

impl<C> Way<'_, C> {
    // The seconds that a walk takes from `start`, and where it ends.
    fn time(&self, place: usize, start: u64) -> (f64, u64) {
        let mut word = start;
        let began = Instant::now();
        let done = unsafe {
            self.walks[place](
                self.clauses.as_ptr(),
                self.clauses.len(),
                VARIABLES,
                FLIPS,
                &mut word,
            )
        };
        let seconds = began.elapsed().as_secs_f64();
        assert!(done, "out of memory");
        (seconds, word)
    }
}

// The ways that are compared. Rattle takes pairs, and makes lines of them once
// in each walk, before it weighs them some hundred times.
struct Ways<'a> {
    rattle: Way<'a, Pair>,
    lines: Way<'a, Line>,
    pairs: Way<'a, Pair>,
}

impl<'a> Ways<'a> {
    fn new(pairs: &'a [Pair], lines: &'a [Line]) -> Ways<'a> {
        Ways {
            rattle: Way {
                walks: places!(Pair: weighing_c_walk_0, weighing_c_walk_16, weighing_c_walk_32, weighing_c_walk_48),
                clauses: pairs,
            },
            lines: Way {
                walks: places!(Line: walk_lines_0, walk_lines_16, walk_lines_32, walk_lines_48),
                clauses: lines,
            },
            pairs: Way {
                walks: places!(Pair: walk_pairs_0, walk_pairs_16, walk_pairs_32, walk_pairs_48),
                clauses: pairs,
            },
        }
    }

    // The least seconds of each way at each place. The ways take turns, so that
    // a slow moment of the machine strikes all alike.
    fn least(&self, start: u64) -> [[f64; PLACES]; 3] {
        let mut least = [[f64::INFINITY; PLACES]; 3];
        for _ in 0..ROUNDS {
            for place in 0..PLACES {
                let timed = [
                    self.rattle.time(place, start),
                    self.lines.time(place, start),
                    self.pairs.time(place, start),
                ];
                for (times, (time, end)) in least.iter_mut().zip(timed) {
                    assert_eq!(end, timed[0].1, "the walks end at different assignments");
                    times[place] = times[place].min(time);
                }
            }
        }
        least
    }
}

// Numbers from a seed, by xorshift.
struct Random(u64);

impl Random {
    fn next(&mut self) -> u64 {
        self.0 ^= self.0 << 13;
        self.0 ^= self.0 >> 7;
        self.0 ^= self.0 << 17;
        self.0
    }

    // Three literals of three variables.
    fn pair(&mut self) -> Pair {
        let mut pair = Pair { pos: 0, neg: 0 };
        while (pair.pos | pair.neg).count_ones() < 3 {
            let one = 1 << (self.next() % u64::from(VARIABLES));
            if (pair.pos | pair.neg) & one != 0 {
                continue;
            }
            if self.next() & 1 == 0 {
                pair.pos |= one;
            } else {
                pair.neg |= one;
            }
        }
        pair
    }
}

// What a flip step takes at the best of the places, and on average over them.
fn best_and_mean(times: [f64; PLACES]) -> [f64; 2] {
    let best = times.into_iter().fold(f64::INFINITY, f64::min);
    [best, times.into_iter().sum::<f64>() / PLACES as f64]
}

// The microseconds of a flip step over `count` clauses, way by way.
fn measure(count: usize, starts: u32) -> [[f64; 2]; 3] {
    let mut random = Random(88_172_645_463_325_252);
    let pairs: Vec<Pair> = (0..count).map(|_| random.pair()).collect();
    let line = |clause: &Pair| Line {
        origin: [0; 4],
        clause: *clause,
    };
    let lines: Vec<Line> = pairs.iter().map(line).collect();
    let ways = Ways::new(&pairs, &lines);
    let mut totals = [[0.0; PLACES]; 3];
    for _ in 0..starts {
        let start = random.next();
        let (_, end) = ways.rattle.time(0, start);
        assert_eq!((start ^ end).count_ones(), FLIPS, "a walk ends early");
        let least = ways.least(start);
        for (total, time) in totals.iter_mut().flatten().zip(least.iter().flatten()) {
            *total += time * 1e6 / f64::from(starts * FLIPS);
        }
    }
    totals.map(best_and_mean)
}

// Prints the times, and gives the ratio of Rattle to Rust over the same lines
// at the best places.
fn compare(count: usize, starts: u32) -> f64 {
    let [rattle, lines, pairs] = measure(count, starts);
    println!("{count} lines, microseconds for a flip step    best place     mean");
    println!(
        "  Rattle                          {:16.1} {:8.1}",
        rattle[0], rattle[1]
    );
    let ratios = |rust: [f64; 2]| [rattle[0] / rust[0], rattle[1] / rust[1]];
    for (name, rust) in [("the same lines", lines), ("clauses alone", pairs)] {
        let [best, mean] = ratios(rust);
        println!(
            "  Rust, {name:14}            {:16.1} {:8.1}",
            rust[0], rust[1]
        );
        println!("    ratio of Rattle to this       {best:16.3} {mean:8.3}");
    }
    ratios(lines)[0]
}

fn main() -> ExitCode {
    let ratio = compare(1000, 16).max(compare(65_536, 2));
    println!("ratio of Rattle to Rust over the same lines: {ratio:.3} (at most {LIMIT} is wanted)");
    if ratio > LIMIT {
        return ExitCode::FAILURE;
    }
    ExitCode::SUCCESS
}
