//! One thing made again and again by one library, for a count of its instructions: what a program like
//! callgrind counts for more repetitions than for fewer is theirs (`hosts/instructions.sh`).

use crate::inputs::{Input, Inputs};
use crate::shapes::SHAPES;
use crate::timing::Library;
use crate::{expect, expect_over, SEED};
use std::hint::black_box;

/// How many variants are repeated in turn.
const REPEATED: usize = 8;

/// What is repeated, each time from a start on the next variant: that by itself, or with a whole check.
#[derive(Clone, Copy, Debug, PartialEq)]
enum What {
    Start,
    Run,
    Shuffled,
    Picks,
}

/// What the words after `--repeat` ask for.
#[derive(Debug, PartialEq)]
pub struct Repeated {
    times: usize,
    library: Library,
    what: What,
    shape: usize,
    n: usize,
}

pub const LIBRARIES: [(&str, Library); 3] =
    [("proved", Library::Proved), ("plain", Library::Plain), ("c", Library::C)];
const WHATS: [(&str, What); 4] = [
    ("start", What::Start),
    ("run", What::Run),
    ("shuffled", What::Shuffled),
    ("picks", What::Picks),
];

/// The value of a name among those there are.
fn named<T: Copy>(name: &str, among: &[(&'static str, T)]) -> Result<T, String> {
    let found = among.iter().find(|&&(known, _)| known == name);
    let names = || among.iter().map(|&(known, _)| known).collect::<Vec<_>>().join("; ");
    found.map(|&(_, value)| value).ok_or_else(|| format!("no {name}; there are: {}", names()))
}

impl Repeated {
    pub fn named(words: &[String]) -> Result<Repeated, String> {
        let [times, library, what, shape, n] = words else {
            return Err("--repeat wants TIMES LIBRARY WHAT SHAPE N".into());
        };
        let shapes: Vec<(&str, usize)> =
            SHAPES.iter().enumerate().map(|(place, shape)| (shape.0, place)).collect();
        let sizes = crate::SIZES.map(|n| (n, n.to_string()));
        let size = sizes.iter().find(|(_, name)| name == n);
        Ok(Repeated {
            times: times.parse().map_err(|_| format!("no number of times: {times}"))?,
            library: named(library, &LIBRARIES)?,
            what: named(what, &WHATS)?,
            shape: named(shape, &shapes)?,
            n: size.ok_or_else(|| format!("no N: {n}"))?.0,
        })
    }

    /// Makes it so many times and gives the number of deliveries. What is done before and after does
    /// not depend on the number of times.
    pub fn make(&self) -> usize {
        let inputs = Inputs::new(SHAPES[self.shape], self.n, REPEATED);
        let mut tables: Vec<_> = inputs.variants.iter().map(|input| input.table.clone()).collect();
        let mut area = inputs.variants[0].started.clone();
        let mut made = 0;
        for time in 0..self.times {
            let input = inputs.variant(time);
            made += self.once(input, black_box(&mut tables[time % REPEATED]), &mut area);
        }
        made
    }

    fn once(&self, input: &Input, table: &mut [u8], area: &mut [i32]) -> usize {
        let library = self.library.calls();
        expect(library.start(table, input.start, 1, area).number);
        match self.what {
            What::Start => return 0,
            What::Run => expect_over(library.run_on(area, u32::MAX), input),
            What::Shuffled => expect_over(library.run_shuffled(area, u32::MAX, SEED), input),
            What::Picks => {
                for &(from, to) in &input.picks {
                    expect(library.pick(area, from, to, 1).number);
                }
            }
        }
        input.picks.len()
    }
}

#[cfg(test)]
mod tests {
    use super::*;

    fn words(line: &str) -> Vec<String> {
        line.split(',').map(String::from).collect()
    }

    #[test]
    fn the_words_are_known_or_named() {
        let repeated = Repeated::named(&words("3,c,shuffled,two hubs,16"));
        let (library, what) = (Library::C, What::Shuffled);
        assert_eq!(repeated, Ok(Repeated { times: 3, library, what, shape: 4, n: 16 }));
        let refused = |line: &str| Repeated::named(&words(line)).unwrap_err();
        assert!(refused("3,c,shuffled,two hubs").contains("wants TIMES LIBRARY WHAT SHAPE N"));
        assert!(refused("x,c,run,random,16").contains("no number of times: x"));
        assert!(refused("3,x,run,random,16").contains("no x; there are: proved; plain; c"));
        assert!(refused("3,c,x,random,16").contains("no x; there are: start; run"));
        assert!(refused("3,c,run,x,16").contains("no x; there are: next four"));
        assert!(refused("3,c,run,random,17").contains("no N: 17"));
    }

    #[test]
    fn every_library_makes_the_same_deliveries() {
        for what in [What::Start, What::Run, What::Shuffled, What::Picks] {
            let made = Library::ALL
                .map(|library| Repeated { times: 2, library, what, shape: 2, n: 16 }.make());
            assert_eq!(made, [made[0]; 3], "{what:?}");
            assert_eq!(made[0] == 0, what == What::Start);
        }
    }
}
