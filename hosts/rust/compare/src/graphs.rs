//! Waits drawn from the generator, their tables, and a plain graph search for the end of a check.

use crate::rng::Rng;

pub const MOST_PROCESSES: usize = 128;
pub const MOST_ARCS: usize = 512;

/// N and the waits, in the order of their arcs.
#[derive(Clone, Debug)]
pub struct Graph {
    pub n: usize,
    pub waits: Vec<(usize, usize)>,
}

/// A check, and the picks that it begins with.
pub struct WaysOut {
    pub graph: Graph,
    pub start: usize,
    pub picks: Vec<(usize, usize)>,
}

/// How large a drawn graph may be.
#[derive(Clone, Copy, Debug)]
pub enum Scale {
    Tiny,
    Small,
    Middle,
    Large,
}

impl Graph {
    pub fn draw(rng: &mut Rng, scale: Scale) -> Graph {
        let (low, high, most) = match scale {
            Scale::Tiny => (1, 3, 9),
            Scale::Small => (2, 8, 20),
            Scale::Middle => (9, 40, 120),
            Scale::Large => (41, MOST_PROCESSES, MOST_ARCS),
        };
        let n = rng.within(low, high);
        match rng.below(6) {
            0 => Graph::ring(n, rng.within(1, 4)),
            1 => Graph::star(rng, n),
            _ => {
                let m = rng.below(most.min(n * n) + 1);
                Graph::random(rng, n, m)
            }
        }
    }

    /// A scale drawn so that small graphs are many and every size occurs.
    pub fn any(rng: &mut Rng) -> Graph {
        let scale = match rng.below(256) {
            0 => return Graph::at_a_limit(rng),
            1..=3 => Scale::Large,
            4..=20 => Scale::Middle,
            21..=124 => Scale::Small,
            _ => Scale::Tiny,
        };
        Graph::draw(rng, scale)
    }

    /// N 128, with M 0 or 512.
    fn at_a_limit(rng: &mut Rng) -> Graph {
        match rng.below(3) {
            0 => Graph { n: MOST_PROCESSES, waits: Vec::new() },
            1 => Graph::ring(MOST_PROCESSES, 4),
            _ => Graph::random(rng, MOST_PROCESSES, MOST_ARCS),
        }
    }

    /// One of 01's rows ("Checks at the start from process 1").
    pub fn of_a_row(rng: &mut Rng) -> Graph {
        let rows: [(usize, &[(usize, usize)]); 8] = [
            (1, &[]),
            (1, &[(1, 1)]),
            (2, &[(1, 2)]),
            (2, &[(2, 1)]),
            (2, &[(1, 2), (2, 1)]),
            (3, &[(1, 2), (2, 3), (3, 1)]),
            (3, &[(1, 2), (2, 1), (2, 3)]),
            (3, &[(1, 2), (2, 3), (3, 2)]),
        ];
        let (n, waits) = rng.choose(&rows);
        Graph { n, waits: waits.to_vec() }
    }

    fn random(rng: &mut Rng, n: usize, m: usize) -> Graph {
        let mut taken = vec![false; n * n];
        let mut waits = Vec::new();
        while waits.len() < m {
            let pair = rng.below(n * n);
            if !taken[pair] {
                taken[pair] = true;
                waits.push((pair / n + 1, pair % n + 1));
            }
        }
        Graph { n, waits }
    }

    /// Every process waits for the next ones: strongly connected, so that D is 4 times M.
    pub fn ring(n: usize, degree: usize) -> Graph {
        let mut waits: Vec<_> = (0..n)
            .flat_map(|i| (1..=degree.min(n)).map(move |j| (i + 1, (i + j) % n + 1)))
            .collect();
        waits.truncate(MOST_ARCS);
        Graph { n, waits }
    }

    /// Many waits from and to one process, which makes the degrees and num large.
    fn star(rng: &mut Rng, n: usize) -> Graph {
        let middle = rng.within(1, n);
        let mut waits = vec![(middle, middle)];
        for other in (1..=n).filter(|&other| other != middle) {
            if !rng.one_in(8) {
                waits.push((middle, other));
            }
            if !rng.one_in(8) {
                waits.push((other, middle));
            }
        }
        rng.shuffle(&mut waits);
        Graph { n, waits }
    }

    /// A check with two ways out or more, of which the lowest-numbered is first reached last.
    ///
    /// Some processes stand in a circle with the start, of any numbers: they are reachable and no
    /// ways out. Some wait for the start only, or for nobody and nobody for them. The ways out,
    /// highest first, either are a path from the end of the circle, where no order of messages
    /// can reach one before those in front of it; or the start waits for each, and the picks
    /// reach them one by one. Waits from a way out to those before it make no way shorter.
    pub fn with_ways_out(rng: &mut Rng) -> WaysOut {
        let n = if rng.one_in(64) { MOST_PROCESSES } else { rng.within(3, 24) };
        let start = rng.within(1, n);
        let mut others: Vec<usize> = (1..=n).filter(|&process| process != start).collect();
        rng.shuffle(&mut others);
        let mut out = others.split_off(rng.below(others.len() - 1));
        out.sort_by_key(|&process| std::cmp::Reverse(process));
        let apart = others.split_off(rng.below(others.len() + 1));
        let mut waits: Vec<_> =
            apart.into_iter().filter(|_| rng.one_in(2)).map(|process| (process, start)).collect();
        let mut last = start;
        for &process in &others {
            waits.push((last, process));
            last = process;
        }
        if last != start {
            waits.push((last, start));
        }
        let mut picks = Vec::new();
        if rng.one_in(2) {
            picks.extend(out.iter().map(|&process| (start, process)));
            waits.extend(&picks);
        } else {
            for &process in &out {
                waits.push((last, process));
                last = process;
            }
        }
        for place in 0..out.len() {
            if rng.one_in(3) {
                waits.push((out[place], out[rng.below(place + 1)]));
            }
        }
        rng.shuffle(&mut waits);
        WaysOut { graph: Graph { n, waits }, start, picks }
    }

    /// Waits in which each process, by a drawn share, waits for nobody, or else for one or more. So few
    /// or many that wait for nobody are reachable, or none, also where the start is in no knot (02, N3).
    pub fn with_some_for_nobody(rng: &mut Rng) -> Graph {
        let n = if rng.one_in(64) { MOST_PROCESSES } else { rng.within(1, 12) };
        let share = rng.choose(&[0, 0, 1, 2, 4, 7]);
        let mut others: Vec<usize> = (1..=n).collect();
        let mut waits = Vec::new();
        for from in 1..=n {
            if rng.below(8) >= share {
                rng.shuffle(&mut others);
                let degree = rng.within(1, n.min(4));
                waits.extend(others[..degree].iter().map(|&to| (from, to)));
            }
        }
        rng.shuffle(&mut waits);
        Graph { n, waits }
    }

    /// Waits of uneven degrees: by drawn shares some processes wait for many and some are waited for
    /// by many, and every third or so waits for itself.
    pub fn uneven(rng: &mut Rng) -> Graph {
        let n = if rng.one_in(64) { MOST_PROCESSES } else { rng.within(2, 16) };
        let mut shares =
            || -> Vec<usize> { (0..n).map(|_| rng.choose(&[0, 1, 1, 2, 6])).collect() };
        let (out, of) = (shares(), shares());
        let pairs = (0..n * n).filter(|pair| match (pair / n, pair % n) {
            (from, to) if from == to => rng.one_in(3),
            (from, to) => rng.below(24) < out[from] * of[to],
        });
        let mut waits: Vec<_> = pairs.map(|pair| (pair / n + 1, pair % n + 1)).collect();
        rng.shuffle(&mut waits);
        waits.truncate(MOST_ARCS);
        Graph { n, waits }
    }

    /// The waits as a list for the writer.
    pub fn list(&self) -> Vec<u16> {
        self.waits.iter().flat_map(|&(from, to)| [from as u16, to as u16]).collect()
    }

    /// A table of these waits with its chains in a drawn order.
    pub fn table(&self, rng: &mut Rng) -> Vec<u8> {
        let (n, m) = (self.n, self.waits.len());
        let mut fields = vec![0; 2 + 2 * n + 4 * m];
        (fields[0], fields[1]) = (n as u16, m as u16);
        let mut order: Vec<usize> = (0..m).collect();
        for chain in 0..2 {
            rng.shuffle(&mut order);
            for &arc in &order {
                let (from, to) = self.waits[arc];
                let end = [from, to][chain];
                let first = 2 + 2 * (end - 1) + chain;
                let record = 2 + 2 * n + 4 * arc;
                fields[record + chain] = end as u16;
                fields[record + 2 + chain] = fields[first];
                fields[first] = arc as u16 + 1;
            }
        }
        fields.into_iter().flat_map(u16::to_le_bytes).collect()
    }

    pub fn words_needed(&self) -> usize {
        8 * self.n + 20 * self.waits.len() + 16
    }

    /// What 01 says of the end of a check ("The end of a check"), by searching the graph.
    pub fn end(&self, start: usize) -> End {
        let reachable = self.search(start, |&(from, to)| (from, to));
        let reaching = self.search(start, |&(from, to)| (to, from));
        let once = self.waits.iter().filter(|&&(from, _)| reachable[from]).count()
            + self.waits.iter().filter(|&&(_, to)| reaching[to]).count();
        let outside = (1..=self.n).filter(|&p| reachable[p] && !reaching[p]).collect();
        // Where such an arc leads is reachable by one arc or more.
        let by_an_arc = self.waits.iter().any(|&(from, _)| reachable[from]);
        let waits_for_nobody = |&p: &usize| self.waits.iter().all(|&(from, _)| from != p);
        let for_nobody = (1..=self.n).filter(|&p| reachable[p]).filter(waits_for_nobody).count();
        End { reachable, reaching, deliveries: 2 * once, outside, by_an_arc, for_nobody }
    }

    /// Which processes the search meets from `start` along the arcs as turned; place 0 is empty.
    fn search(
        &self,
        start: usize,
        turned: impl Fn(&(usize, usize)) -> (usize, usize),
    ) -> Vec<bool> {
        let mut met = vec![false; self.n + 1];
        met[start] = true;
        let mut open = vec![start];
        while let Some(process) = open.pop() {
            for (from, to) in self.waits.iter().map(&turned) {
                if from == process && !met[to] {
                    met[to] = true;
                    open.push(to);
                }
            }
        }
        met
    }
}

/// The end of a check: by process from 1, who is reachable from the start and who reaches it;
/// the number D; the processes outside, lowest first; how many reachable processes wait for nobody;
/// whether any process is reachable by one arc or more.
pub struct End {
    pub reachable: Vec<bool>,
    pub reaching: Vec<bool>,
    pub deliveries: usize,
    pub outside: Vec<usize>,
    pub for_nobody: usize,
    by_an_arc: bool,
}

impl End {
    /// Whether the start is in a knot by an edition (02, N4).
    pub fn is_knot(&self, edition: usize) -> bool {
        self.outside.is_empty() && (edition == 1 || self.by_an_arc)
    }

    /// "returned exactly if every process reachable from the start, itself included, waits for
    /// somebody" (02, N3).
    pub fn is_returned(&self) -> bool {
        self.for_nobody == 0
    }
}

/// Whether the start is in a knot goes by the first edition here.
#[test]
fn every_mark_comes_with_every_verdict() {
    let mut rng = Rng::new(7);
    let mut met = [[0; 2]; 2];
    let mut most = 0;
    for _ in 0..3000 {
        let graph = Graph::with_some_for_nobody(&mut rng);
        let end = graph.end(rng.within(1, graph.n));
        met[usize::from(end.is_knot(1))][usize::from(end.is_returned())] += 1;
        most = most.max(end.for_nobody);
    }
    assert!(met.as_flattened().iter().all(|&times| times > 20), "{met:?}");
    assert!(most > 20, "{most}");
}

#[test]
fn the_lowest_way_out_is_first_reached_last() {
    let mut rng = Rng::new(7);
    for _ in 0..500 {
        let WaysOut { mut graph, start, picks } = Graph::with_ways_out(&mut rng);
        let outside = graph.end(start).outside;
        assert!(outside.len() > 1);
        if !picks.is_empty() {
            let falling: Vec<_> =
                outside.into_iter().rev().map(|process| (start, process)).collect();
            assert_eq!(picks, falling);
            continue;
        }
        // What comes to the lowest has come to every other one first.
        let waits = graph.waits.clone();
        for other in &outside[1..] {
            graph.waits = waits.iter().copied().filter(|(from, _)| from != other).collect();
            assert!(!graph.end(start).reachable[outside[0]]);
        }
    }
}
