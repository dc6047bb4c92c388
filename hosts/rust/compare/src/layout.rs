//! The words of a run area (docs/LAYOUT.md), as far as the comparison makes areas of its own and
//! looks for messages to pick.

use crate::graphs::Graph;
use crate::rng::Rng;

/// The word that names the edition.
pub const EDITION: usize = 3;
/// Word 0 of an area of the knot check (docs/LAYOUT.md).
pub const KNOT_CHECK: i32 = 2;
const HEADING: usize = 14;

/// The most messages on a link.
pub const MOST_WAITING: usize = 4;

/// The word of a record that holds the second sum (02, N3).
pub const SECOND: usize = 4;

/// The word of an acknowledgement with its count and its second count.
pub const fn ack_word(count: i32, second: i32) -> i32 {
    (256 + count) + 512 * (256 + second)
}

/// The link between two neighbours, and the word where its messages begin.
#[derive(Clone, Copy, Debug)]
pub struct Link {
    pub from: usize,
    pub to: usize,
    pub place: usize,
}

impl Link {
    /// How many messages wait here, which a pick can take by their places.
    pub fn load(&self, area: &[i32]) -> usize {
        let messages = &area[self.place..self.place + MOST_WAITING];
        messages.iter().take_while(|&&message| message != 0).count()
    }
}

fn first_record(graph: &Graph) -> usize {
    HEADING + 2 + 2 * graph.n + 4 * graph.waits.len()
}

/// The word where a process's record begins.
pub fn record_place(graph: &Graph, process: usize) -> usize {
    first_record(graph) + 6 * (process - 1)
}

/// Every link: the first of each arc, and the second if there is no arc back.
pub fn links(graph: &Graph) -> Vec<Link> {
    let n = graph.n;
    let mut waits = vec![false; n * n];
    for &(from, to) in &graph.waits {
        waits[(from - 1) * n + to - 1] = true;
    }
    let mut links = Vec::new();
    for (arc, &(from, to)) in graph.waits.iter().enumerate() {
        let place = first_record(graph) + 6 * n + 16 * arc;
        links.push(Link { from, to, place });
        if !waits[(to - 1) * n + from - 1] {
            links.push(Link { from: to, to: from, place: place + 8 });
        }
    }
    links
}

/// A well-formed area of drawn values: as a rule no run reaches it.
pub fn draw_area(rng: &mut Rng, graph: &Graph, table: &[u8], links: &[Link]) -> Vec<i32> {
    let mut area = vec![0; graph.words_needed()];
    let start = rng.within(1, graph.n);
    area[0] = KNOT_CHECK;
    area[1] = start as i32;
    area[2] = match rng.below(8) {
        0 => 2048,
        1 => 2047,
        2 => rng.within(2030, 2048) as i32,
        _ => rng.below(2049) as i32,
    };
    area[EDITION] = rng.within(1, 2) as i32;
    for (word, field) in area[HEADING..].iter_mut().zip(table.chunks_exact(2)) {
        *word = i32::from(u16::from_le_bytes([field[0], field[1]]));
    }
    let mut neighbours = vec![vec![0]; graph.n + 1];
    for link in links {
        neighbours[link.from].push(link.to as i32);
    }
    // Areas of all kinds: few or many numbers at the ends of their ranges.
    let extreme = rng.within(1, 6);
    for (process, neighbours) in neighbours.iter().enumerate().skip(1) {
        let record = record_place(graph, process);
        area[record] = rng.below(8) as i32;
        area[record + 1] = draw_count(rng, extreme);
        area[record + 2] = draw_num(rng, extreme);
        area[record + 3] = rng.choose(neighbours);
        area[record + SECOND] = draw_count(rng, extreme);
    }
    let num = record_place(graph, start) + 2;
    if rng.one_in(6) {
        area[num] = 0;
    } else if area[num] == 0 {
        area[num] = rng.within(1, 256) as i32;
    }
    let fullness = rng.within(1, 5);
    for link in links {
        let load = if rng.one_in(6) { MOST_WAITING } else { rng.below(fullness) };
        for word in &mut area[link.place..link.place + load] {
            *word = match rng.below(4) {
                0 => 1,
                1 => 2,
                _ => ack_word(draw_count(rng, extreme), draw_count(rng, extreme)),
            };
        }
    }
    area
}

/// A sum or count, −128 to 128.
pub fn draw_count(rng: &mut Rng, extreme: usize) -> i32 {
    if rng.one_in(extreme) {
        rng.choose(&[-128, -127, 127, 128])
    } else if rng.one_in(4) {
        rng.within(0, 256) as i32 - 128
    } else {
        rng.within(0, 4) as i32 - 2
    }
}

/// A num, 0 to 256.
pub fn draw_num(rng: &mut Rng, extreme: usize) -> i32 {
    if rng.one_in(extreme) {
        rng.choose(&[0, 1, 252, 253, 254, 255, 256])
    } else if rng.one_in(4) {
        rng.below(257) as i32
    } else {
        rng.below(4) as i32
    }
}
