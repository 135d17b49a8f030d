// The flip step in plain Rust, as the crates weighing, search and weighing_c have it:
// over lines that carry where they come from, as theirs do, and over clauses
// alone. `run` compiles this file to an object of its own.

const LENGTHS: usize = 65;

// A clause: bit v - 1 of `pos` for the literal v, of `neg` for -v.
#[repr(C)]
#[derive(Clone, Copy)]
pub struct Pair {
    pub pos: u64,
    pub neg: u64,
}

#[repr(C)]
#[derive(Clone, Copy)]
pub struct Line {
    pub origin: [u32; 4],
    pub clause: Pair,
}

pub trait Clause {
    fn pair(&self) -> Pair;
}

impl Clause for Pair {
    fn pair(&self) -> Pair {
        *self
    }
}

impl Clause for Line {
    fn pair(&self) -> Pair {
        self.clause
    }
}

// Entry k is the number of broken clauses of length k.
type Row = [u32; LENGTHS];

fn weigh<C: Clause>(clauses: &[C], word: u64) -> Row {
    let mut counts = [0; LENGTHS];
    for clause in clauses {
        let Pair { pos, neg } = clause.pair();
        if (pos & word) | (neg & !word) == 0 {
            let length = pos.count_ones() + neg.count_ones();
            // Sound: a broken clause holds no variable both ways, so no length
            // is above 64. Rattle's loop has no bounds test here either.
            unsafe { *counts.get_unchecked_mut(length as usize) += 1 };
        }
    }
    counts
}

fn better(a: &Row, b: &Row) -> bool {
    a.iter().sum::<u32>() < b.iter().sum()
}

fn flip<C: Clause>(clauses: &[C], n: u32, word: u64) -> Option<u32> {
    let mut row = weigh(clauses, word);
    let mut best = None;
    for v in 1..=n {
        let next = weigh(clauses, word ^ (1 << (v - 1)));
        if better(&next, &row) {
            row = next;
            best = Some(v);
        }
    }
    best
}

fn walk<C: Clause>(clauses: &[C], n: u32, most: u32, word: &mut u64) -> bool {
    for _ in 0..most {
        let Some(v) = flip(clauses, n, *word) else {
            break;
        };
        *word ^= 1 << (v - 1);
    }
    true
}

// The walk over clauses of one kind, as C calls it. The caller vouches for
// `count` clauses at the pointer.
macro_rules! exported {
    ($name:ident, $clause:ty) => {
        #[unsafe(no_mangle)]
        pub unsafe extern "C" fn $name(
            clauses: *const $clause,
            count: usize,
            n: u32,
            most: u32,
            word: &mut u64,
        ) -> bool {
            let clauses = unsafe { std::slice::from_raw_parts(clauses, count) };
            walk(clauses, n, most, word)
        }
    };
}

exported!(walk_lines, Line);
exported!(walk_pairs, Pair);
