//! The shapes of waits on which all is timed, each of N processes with 4N waits, in 64 variants. What is
//! drawn is drawn from fixed seeds, so that every run times the same waits.

// The comparison draws in more ways.
#[allow(dead_code)]
#[path = "../../compare/src/rng.rs"]
mod rng;

use rng::Rng;

pub type Waits = Vec<(usize, usize)>;

/// A name, and how the waits of N processes are drawn.
pub type Shape = (&'static str, fn(usize, &mut Rng) -> Waits);

pub const SHAPES: [Shape; 5] = [
    ("next four", next_four),
    ("ring with random waits", ring),
    ("random", random),
    ("bipartite", bipartite),
    ("two hubs", two_hubs),
];

/// How many waits there are of each shape and size: one run that is repeated teaches the branch
/// predictor, which remembers some ten thousand deliveries.
pub const VARIANTS: usize = 64;

/// One of the variants of a shape, its arcs in an order that is drawn, too.
pub fn variant((_, draw): Shape, n: usize, variant: usize) -> Waits {
    let mut rng = Rng::new((n * VARIANTS + variant) as u64);
    let mut waits = draw(n, &mut rng);
    rng.shuffle(&mut waits);
    waits
}

/// Each process waits for the next four, so that all waits count in D both ways and D is 4 times M.
fn next_four(n: usize, rng: &mut Rng) -> Waits {
    let waits = (0..n).flat_map(|i| (1..=4).map(move |j| (i + 1, (i + j) % n + 1)));
    renumbered(n, rng, waits.collect())
}

/// Each process waits for the next one, and the others are drawn: D is 4 times M.
fn ring(n: usize, rng: &mut Rng) -> Waits {
    filled(n, rng, (0..n).map(|i| (i + 1, (i + 1) % n + 1)).collect(), |_, _| true)
}

/// Drawn among all pairs, loops too.
fn random(n: usize, rng: &mut Rng) -> Waits {
    filled(n, rng, Vec::new(), |_, _| true)
}

/// Drawn among the pairs, of either direction, of a process of the lower half and one of the upper.
fn bipartite(n: usize, rng: &mut Rng) -> Waits {
    filled(n, rng, Vec::new(), |from, to| (from <= n / 2) != (to <= n / 2))
}

/// Two processes wait for everybody, themselves too, and everybody waits for these two; four others are
/// drawn. The first process is one of the two. D is 4 times M, and at N 128 the num of a start there
/// begins at 256.
fn two_hubs(n: usize, rng: &mut Rng) -> Waits {
    let hubs = [1, n].into_iter();
    let mut waits: Waits =
        hubs.flat_map(|hub| (1..=n).flat_map(move |other| [(hub, other), (other, hub)])).collect();
    waits.sort();
    waits.dedup();
    let waits = renumbered(n, rng, waits);
    filled(n, rng, waits, |_, _| true)
}

/// Filled up to 4N with drawn waits, between processes that may have one.
fn filled(
    n: usize,
    rng: &mut Rng,
    mut waits: Waits,
    may_wait: impl Fn(usize, usize) -> bool,
) -> Waits {
    while waits.len() < 4 * n {
        let (from, to) = (rng.within(1, n), rng.within(1, n));
        if may_wait(from, to) && !waits.contains(&(from, to)) {
            waits.push((from, to));
        }
    }
    waits
}

/// The same waits with all processes but the first renumbered as it is drawn.
fn renumbered(n: usize, rng: &mut Rng, waits: Waits) -> Waits {
    let mut numbers: Vec<usize> = (0..=n).collect();
    rng.shuffle(&mut numbers[2..]);
    waits.into_iter().map(|(from, to)| (numbers[from], numbers[to])).collect()
}

#[cfg(test)]
mod tests {
    use super::*;
    use std::collections::BTreeSet;

    fn all(shape: Shape, n: usize) -> impl Iterator<Item = Waits> {
        (0..VARIANTS).map(move |number| variant(shape, n, number))
    }

    #[test]
    fn every_variant_is_another_set_of_4n_waits() {
        for shape in SHAPES {
            for n in [16, 128] {
                let sets: BTreeSet<BTreeSet<_>> =
                    all(shape, n).map(|waits| waits.into_iter().collect()).collect();
                assert_eq!(sets.len(), VARIANTS, "{}", shape.0);
                assert!(sets.iter().all(|waits| waits.len() == 4 * n), "{}", shape.0);
                let right = |&(from, to): &_| (1..=n).contains(&from) && (1..=n).contains(&to);
                assert!(sets.iter().flatten().all(right), "{}", shape.0);
            }
        }
    }

    /// How many processes each waits for, and how many wait for it, both with itself.
    fn degrees(n: usize, waits: &Waits) -> Vec<[usize; 2]> {
        let mut degrees = vec![[0; 2]; n];
        for &(from, to) in waits {
            degrees[from - 1][0] += 1;
            degrees[to - 1][1] += 1;
        }
        degrees
    }

    #[test]
    fn renumbered_shapes_keep_their_degrees() {
        for n in [16, 128] {
            for waits in all(SHAPES[0], n) {
                assert_eq!(degrees(n, &waits), vec![[4; 2]; n]);
            }
            for waits in all(SHAPES[4], n) {
                let degrees = degrees(n, &waits);
                assert_eq!(degrees[0], [n; 2]);
                assert_eq!(degrees.iter().filter(|&&degree| degree == [n; 2]).count(), 2);
            }
        }
    }
}
