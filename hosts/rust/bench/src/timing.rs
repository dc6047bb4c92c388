//! Repetitions in which the libraries take turns, and their medians.

use crate::rows::{Row, Size};
use calls::{Calls, Fast, Plain, Proved};
use std::time::{Duration, Instant};

/// What is timed.
#[derive(Clone, Copy, Debug, PartialEq)]
pub enum Library {
    Proved,
    Plain,
    C,
}

impl Library {
    pub const ALL: [Library; 3] = [Library::Proved, Library::Plain, Library::C];

    pub fn calls(self) -> &'static dyn Calls {
        match self {
            Library::Proved => &Proved,
            Library::Plain => &Plain,
            Library::C => &Fast,
        }
    }
}

/// Something to time: `once` does it with a library, in the turn of that number.
pub struct Timed<'a> {
    what: &'static str,
    size: Option<Size>,
    libraries: &'static [Library],
    once: Box<dyn FnMut(Library, usize) -> Duration + 'a>,
    turns: usize,
    /// By library.
    times: [Vec<f64>; 3],
}

/// How often all things are timed one after another: what else the machine does in some seconds
/// then falls on all of them.
const ROUNDS: usize = 30;
const TIME_PER_ROUND: Duration = Duration::from_millis(60);
const LEAST_PER_ROUND: usize = 3;
const MOST_PER_ROUND: usize = 256;

impl<'a> Timed<'a> {
    pub fn new(
        what: &'static str,
        size: Option<Size>,
        libraries: &'static [Library],
        once: impl FnMut(Library, usize) -> Duration + 'a,
    ) -> Timed<'a> {
        let times = [const { Vec::new() }; 3];
        Timed { what, size, libraries, once: Box::new(once), turns: 0, times }
    }

    /// Each library once, on the same input. Who goes first changes from turn to turn.
    fn turn(&mut self) -> impl Iterator<Item = (Library, f64)> {
        self.turns += 1;
        let turn = self.turns;
        let order = (0..self.libraries.len()).map(|place| (turn + place) % self.libraries.len());
        let times: Vec<_> = order
            .map(|place| self.libraries[place])
            .map(|library| (library, (self.once)(library, turn).as_secs_f64()))
            .collect();
        times.into_iter()
    }

    fn round(&mut self) {
        // What was timed before has left the caches and the predictors to itself.
        let _ = self.turn();
        let began = Instant::now();
        for made in 0..MOST_PER_ROUND {
            if made >= LEAST_PER_ROUND && began.elapsed() > TIME_PER_ROUND {
                break;
            }
            for (library, time) in self.turn() {
                self.times[library as usize].push(time);
            }
        }
    }

    fn row(self) -> Row {
        let Timed { what, size, times, .. } = self;
        let [proved, plain, c] = times.map(median);
        let missing = "each is timed but for C";
        Row { what, size, proved: proved.expect(missing), plain: plain.expect(missing), c }
    }
}

fn median(mut times: Vec<f64>) -> Option<f64> {
    times.sort_by(f64::total_cmp);
    times.get(times.len() / 2).copied()
}

pub fn time_all(mut things: Vec<Timed>) -> Vec<Row> {
    for _ in 0..ROUNDS {
        for thing in &mut things {
            thing.round();
        }
    }
    things.into_iter().map(Timed::row).collect()
}
