//! The families of calls that are compared. Each draws from a generator of its own, so that one
//! family can be repeated alone.

use crate::driver::{Call, Driver, Lent, Outcome};
use crate::graphs::{Graph, Scale, WaysOut, MOST_ARCS, MOST_PROCESSES};
use crate::layout::{
    ack_word, draw_area, draw_count, draw_num, links, record_place, Link, EDITION, KNOT_CHECK,
    MOST_WAITING, SECOND,
};
use crate::rng::Rng;
use calls::{Calls, LentRecord, Received};

type Family<L> = fn(&mut Driver<L>, &mut Rng, u64) -> Outcome<()>;

/// Every family with its name and the least number of calls in a whole comparison.
pub fn families<L: Calls>() -> [(&'static str, u64, Family<L>); 17] {
    [
        ("valid tables", 150_000, valid_tables),
        ("damaged tables", 200_000, damaged_tables),
        ("lists for the writer", 100_000, lists),
        ("starts", 80_000, starts),
        ("valid areas, orders drawn", 250_000, valid_areas),
        ("the largest checks", 20_000, largest_checks),
        ("areas damaged one word at a time", 250_000, damaged_areas),
        ("well-formed areas that no run reaches", 250_000, unreached_areas),
        ("areas with surplus or missing words", 80_000, surplus_areas),
        ("any words", 40_000, any_words),
        ("one process's step", 200_000, steps),
        ("ways out, the lowest reached last", 50_000, ways_out),
        ("every place on a link", 150_000, places),
        ("editions", 150_000, editions),
        ("second sums and counts", 200_000, second_numbers),
        ("small runnings on and picks in turn", 150_000, small_runs),
        ("shuffled runs and picks in turn", 200_000, shuffled_runs),
    ]
}

fn noise_bytes(rng: &mut Rng, length: usize) -> Vec<u8> {
    (0..length).map(|_| rng.draw() as u8).collect()
}

fn noise_words(rng: &mut Rng, length: usize) -> Vec<i32> {
    (0..length).map(|_| rng.word()).collect()
}

/// A number of processes, arcs or the like: mostly 0 to `high` + 1, at times far out.
fn any_number(rng: &mut Rng, high: usize) -> usize {
    match rng.below(40) {
        0 => usize::MAX,
        1 => rng.draw() as usize,
        2 => 65_536 + rng.below(high + 2),
        3 => (1 << 32) + rng.below(high + 2),
        _ => rng.below(high + 2),
    }
}

/// An edition: mostly 1 or 2 (02, N4).
fn any_edition(rng: &mut Rng) -> usize {
    match rng.one_in(4) {
        true => any_number(rng, 3),
        false => rng.choose(&EDITIONS),
    }
}

/// A place on a link: mostly 0 to 5, at times far out.
fn any_place(rng: &mut Rng) -> usize {
    any_number(rng, MOST_WAITING)
}

fn any_k(rng: &mut Rng) -> u32 {
    match rng.below(8) {
        0 => 0,
        1 => u32::MAX,
        2 => rng.below(3000) as u32,
        _ => rng.below(6) as u32,
    }
}

fn few(rng: &mut Rng) -> u32 {
    rng.below(4) as u32
}

/// Seeds (02, N13): 0, which is refused, and others with few bits or many.
pub const SEEDS: [u32; 8] = [0, 1, 2, 1 << 16, 1 << 31, (1 << 31) - 1, u32::MAX - 1, u32::MAX];

/// What a shuffled run from seed 0 gives.
pub const NO_SEED: u32 = 37;

fn any_seed(rng: &mut Rng) -> u32 {
    match rng.one_in(3) {
        true => rng.choose(&SEEDS),
        false => rng.word() as u32,
    }
}

/// A running on in the fixed order, or shuffled by a seed that is not 0.
fn any_run(rng: &mut Rng, draw_k: fn(&mut Rng) -> u32) -> Call {
    let k = draw_k(rng);
    match rng.one_in(2) {
        true => Call::RunOn { k },
        false => Call::RunShuffled { k, seed: any_seed(rng).max(1) },
    }
}

fn any_chain(rng: &mut Rng) -> u32 {
    rng.choose(&[0, 0, 0, 1, 1, 2, u32::MAX])
}

/// Both chains of some processes from end to end.
fn walk<L: Calls>(driver: &mut Driver<L>, rng: &mut Rng, n: usize, lent: &mut Lent) -> Outcome<()> {
    let chain = any_chain(rng);
    let opened = driver.make(Call::Open { chain, process: any_number(rng, n) }, lent)?;
    let mut arc = opened.values[0] as usize;
    for _ in 0..40 {
        if arc == 0 {
            break;
        }
        arc = driver.make(Call::Next { chain, arc }, lent)?.values[0] as usize;
    }
    Ok(())
}

fn valid_tables<L: Calls>(driver: &mut Driver<L>, rng: &mut Rng, least: u64) -> Outcome<()> {
    while driver.calls_in_family() < least {
        let graph = Graph::any(rng);
        let table = graph.table(rng);
        let list = graph.list();
        let spare = rng.choose(&[0, 0, 1, 5, 100]);
        let out = noise_bytes(rng, table.len() + spare);
        let mut lent = Lent { table, list, out, area: Vec::new() };
        driver.make(Call::ReadTable, &mut lent)?;
        walk(driver, rng, graph.n, &mut lent)?;
        driver.make(Call::WriteTable { n: graph.n }, &mut lent)?;
        let length = lent.table.len();
        lent.table.copy_from_slice(&lent.out[..length]);
        driver.make(Call::ReadTable, &mut lent)?;
        walk(driver, rng, graph.n, &mut lent)?;
        for _ in 0..2 {
            let arc = any_number(rng, graph.waits.len());
            driver.make(Call::Next { chain: any_chain(rng), arc }, &mut lent)?;
        }
    }
    Ok(())
}

fn field(table: &[u8], place: usize) -> u16 {
    u16::from_le_bytes([table[2 * place], table[2 * place + 1]])
}

fn set_field(table: &mut [u8], place: usize, value: u16) {
    table[2 * place..2 * place + 2].copy_from_slice(&value.to_le_bytes());
}

/// Damages a table in one of many ways; small values are likely, so that often only one check
/// fails, and one late in their order.
fn damage_table(rng: &mut Rng, graph: &Graph, table: &mut Vec<u8>) {
    let (n, m) = (graph.n, graph.waits.len());
    let fields = table.len() / 2;
    if fields == 0 {
        return;
    }
    let place = match rng.below(8) {
        0 => rng.below(fields.min(2)),
        _ => rng.below(fields),
    };
    match rng.below(12) {
        0 => table.truncate(rng.below(table.len() + 1)),
        1 => table.truncate(table.len() - 1),
        2 => {
            let more = rng.within(1, 9);
            table.extend(noise_bytes(rng, more));
        }
        3 => {
            let place = rng.below(table.len());
            table[place] ^= 1 << rng.below(8);
        }
        4 => {
            let other = rng.below(fields);
            let (a, b) = (field(table, place), field(table, other));
            set_field(table, place, b);
            set_field(table, other, a);
        }
        5 => set_field(table, place, rng.draw() as u16),
        6 => {
            let value = rng.choose(&[0, 1, n, n + 1, m, m + 1, MOST_PROCESSES, MOST_PROCESSES + 1]);
            set_field(table, place, value as u16);
        }
        7 | 8 => {
            let change = rng.choose(&[1, u16::MAX]);
            let value = field(table, place).wrapping_add(change);
            set_field(table, place, value);
        }
        _ => set_field(table, place, rng.below(n.max(m) + 1) as u16),
    }
}

fn damaged_tables<L: Calls>(driver: &mut Driver<L>, rng: &mut Rng, least: u64) -> Outcome<()> {
    let mut lent = Lent::default();
    while driver.calls_in_family() < least {
        let mut graph = Graph::any(rng);
        let alike = rng.one_in(4) && !graph.waits.is_empty() && graph.waits.len() < MOST_ARCS;
        if alike {
            // Two arcs alike, in right chains.
            let again = rng.choose(&graph.waits);
            let place = rng.below(graph.waits.len() + 1);
            graph.waits.insert(place, again);
        }
        let right = graph.table(rng);
        for _ in 0..20 {
            lent.table.clone_from(&right);
            let times = if alike { rng.choose(&[0, 1, 1]) } else { rng.choose(&[1, 1, 1, 2, 3]) };
            for _ in 0..times {
                damage_table(rng, &graph, &mut lent.table);
            }
            driver.make(Call::ReadTable, &mut lent)?;
            let process = any_number(rng, graph.n);
            driver.make(Call::Open { chain: any_chain(rng), process }, &mut lent)?;
            let arc = any_number(rng, graph.waits.len());
            driver.make(Call::Next { chain: any_chain(rng), arc }, &mut lent)?;
            if rng.one_in(4) {
                let length = graph.words_needed() + rng.below(30);
                lent.area = noise_words(rng, length);
                let (start, edition) = (any_number(rng, graph.n), any_edition(rng));
                driver.make(Call::Start { start, edition }, &mut lent)?;
            }
        }
        let length = rng.below(60);
        lent.table = noise_bytes(rng, length);
        driver.make(Call::ReadTable, &mut lent)?;
        driver.make(Call::Next { chain: any_chain(rng), arc: rng.below(4) }, &mut lent)?;
    }
    Ok(())
}

fn lists<L: Calls>(driver: &mut Driver<L>, rng: &mut Rng, least: u64) -> Outcome<()> {
    let mut lent = Lent::default();
    while driver.calls_in_family() < least {
        let graph = match rng.below(40) {
            0 => Graph::ring(MOST_PROCESSES, 4),
            _ => Graph::any(rng),
        };
        let mut n = graph.n;
        lent.list = graph.list();
        for _ in 0..rng.choose(&[0, 1, 1, 1, 2, 3]) {
            let length = lent.list.len();
            match rng.below(7) {
                0 => lent.list.push(rng.within(1, n) as u16),
                1 if length > 0 => {
                    let place = rng.below(length);
                    lent.list[place] = rng.choose(&[0, n as u16 + 1, u16::MAX, 1]);
                }
                2 if length > 1 => {
                    let pair = rng.below(length / 2);
                    let again = [lent.list[2 * pair], lent.list[2 * pair + 1]];
                    lent.list.extend(again);
                }
                3 => n = rng.choose(&[0, 1, MOST_PROCESSES, MOST_PROCESSES + 1, usize::MAX, n]),
                4 if length > 0 => lent.list.truncate(rng.below(length)),
                5 if rng.one_in(8) => {
                    let longer = 2 * MOST_ARCS + rng.choose(&[0, 1, 2, 3]);
                    lent.list.resize(longer, 1);
                }
                _ => n = n.saturating_sub(1).max(1),
            }
            if n == 0 || n > MOST_PROCESSES {
                break;
            }
        }
        let needed = 4 + 4 * n.min(200) + 4 * lent.list.len();
        let length = match rng.below(6) {
            0 => rng.below(needed + 1),
            1 => needed.saturating_sub(1),
            _ => needed + rng.choose(&[0, 1, 4, 60]),
        };
        lent.out = noise_bytes(rng, length);
        driver.make(Call::WriteTable { n }, &mut lent)?;
    }
    Ok(())
}

fn starts<L: Calls>(driver: &mut Driver<L>, rng: &mut Rng, least: u64) -> Outcome<()> {
    let mut lent = Lent::default();
    while driver.calls_in_family() < least {
        let graph = Graph::any(rng);
        lent.table = graph.table(rng);
        let needed = graph.words_needed();
        let noise = noise_words(rng, needed + 40);
        for _ in 0..4 {
            let length = match rng.below(6) {
                0 => rng.below(needed + 1),
                1 => needed - 1,
                _ => needed + rng.choose(&[0, 1, 7, 40]),
            };
            lent.area = noise[..length].to_vec();
            let (start, edition) = (any_number(rng, graph.n), any_edition(rng));
            driver.make(Call::Start { start, edition }, &mut lent)?;
        }
        // Into an area that a start already filled.
        driver.make(draw_start(rng, &graph), &mut lent)?;
    }
    Ok(())
}

/// A start that is accepted if the area is long enough.
fn draw_start(rng: &mut Rng, graph: &Graph) -> Call {
    Call::Start { start: rng.within(1, graph.n), edition: rng.choose(&EDITIONS) }
}

/// A table, its links, and the area that an accepted start left, with surplus words.
fn begin<L: Calls>(
    driver: &mut Driver<L>,
    rng: &mut Rng,
    graph: &Graph,
    start: Call,
) -> Outcome<(Lent, Vec<Link>)> {
    let surplus = rng.choose(&[0, 0, 0, 1, 3, 20]);
    let area = noise_words(rng, graph.words_needed() + surplus);
    let mut lent = Lent { table: graph.table(rng), area, ..Lent::default() };
    driver.make(start, &mut lent)?;
    Ok((lent, links(graph)))
}

/// How an order prefers messages, and from which places of their links it takes them.
#[derive(Clone, Copy)]
struct Order {
    taste: Taste,
    places: Places,
}

#[derive(Clone, Copy)]
enum Taste {
    Any,
    Probes,
    Acknowledgements,
    /// The order of running on (02, N11), turned round.
    Last,
}

#[derive(Clone, Copy)]
enum Places {
    /// Links keep order.
    Oldest,
    Newest,
    All,
}

/// A waiting message, as the order has it: its link and its place there.
fn choose_message(
    rng: &mut Rng,
    order: Order,
    links: &[Link],
    area: &[i32],
) -> Option<(Link, usize)> {
    let mut best: Option<((i32, i32), Link, usize)> = None;
    for &link in links {
        let load = link.load(area);
        let places = match order.places {
            Places::Oldest => 1..=load.min(1),
            Places::Newest => load.max(1)..=load,
            Places::All => 1..=load,
        };
        for place in places {
            let message = area[link.place + place - 1];
            let worth = match order.taste {
                Taste::Any => 0,
                Taste::Probes => i32::from(message <= 2),
                Taste::Acknowledgements => i32::from(message > 2),
                Taste::Last => (link.to * 256 + link.from) as i32,
            };
            // Among equals a drawn one.
            let worth = (worth, rng.word());
            if best.is_none_or(|(other, ..)| worth > other) {
                best = Some((worth, link, place));
            }
        }
    }
    best.map(|(_, link, place)| (link, place))
}

fn pick(link: Link, place: usize) -> Call {
    Call::Pick { from: link.from, to: link.to, place }
}

/// A pick between any two processes, at any place.
fn stray_pick(rng: &mut Rng, n: usize) -> Call {
    Call::Pick { from: any_number(rng, n), to: any_number(rng, n), place: any_place(rng) }
}

/// A drawn call on an area: mostly a pick of a waiting message.
fn draw_call(rng: &mut Rng, order: Order, n: usize, links: &[Link], area: &[i32]) -> Call {
    match rng.below(24) {
        0 => Call::Report,
        1 => Call::ReadRecord { process: any_number(rng, n) },
        2 => stray_pick(rng, n),
        3 => any_run(rng, few),
        4 if !links.is_empty() => pick(rng.choose(links), any_place(rng)),
        _ => match choose_message(rng, order, links, area) {
            Some((link, place)) => pick(link, place),
            None => any_run(rng, any_k),
        },
    }
}

const ANY_ORDER: Order = Order { taste: Taste::Any, places: Places::All };

fn any_order(rng: &mut Rng) -> Order {
    let tastes = [Taste::Any, Taste::Any, Taste::Probes, Taste::Acknowledgements, Taste::Last];
    let places = [Places::All, Places::All, Places::Newest, Places::Oldest];
    Order { taste: rng.choose(&tastes), places: rng.choose(&places) }
}

fn valid_areas<L: Calls>(driver: &mut Driver<L>, rng: &mut Rng, least: u64) -> Outcome<()> {
    while driver.calls_in_family() < least {
        let graph = Graph::any(rng);
        let start = rng.within(1, graph.n);
        let edition = rng.choose(&EDITIONS);
        check_whole(driver, rng, &graph, start, edition, &[])?;
    }
    Ok(())
}

/// Checks with several ways out, of which the lowest is first reached last (02, N1).
fn ways_out<L: Calls>(driver: &mut Driver<L>, rng: &mut Rng, least: u64) -> Outcome<()> {
    while driver.calls_in_family() < least {
        let WaysOut { graph, start, picks } = Graph::with_ways_out(rng);
        let edition = rng.choose(&EDITIONS);
        check_whole(driver, rng, &graph, start, edition, &picks)?;
    }
    Ok(())
}

/// A check from start to end, first by these picks and then in a drawn order, in which messages
/// overtake each other unless it takes the oldest only (02, N5); its end is held against a graph
/// search too.
fn check_whole<L: Calls>(
    driver: &mut Driver<L>,
    rng: &mut Rng,
    graph: &Graph,
    start: usize,
    edition: usize,
    picks: &[(usize, usize)],
) -> Outcome<()> {
    let (mut lent, links) = begin(driver, rng, graph, Call::Start { start, edition })?;
    for &(from, to) in picks {
        driver.make(Call::Pick { from, to, place: 1 }, &mut lent)?;
    }
    let order = any_order(rng);
    let patience = rng.choose(&[5, 50, 3000]);
    for _ in 0..patience {
        if links.iter().all(|link| link.load(&lent.area) == 0) {
            break;
        }
        let call = draw_call(rng, order, graph.n, &links, &lent.area);
        driver.make(call, &mut lent)?;
    }
    driver.make(any_run(rng, |_| u32::MAX), &mut lent)?;
    for k in [0, 1] {
        driver.make(Call::RunOn { k }, &mut lent)?;
        driver.make(Call::RunShuffled { k, seed: any_seed(rng) }, &mut lent)?;
    }
    if !links.is_empty() {
        driver.make(pick(rng.choose(&links), any_place(rng)), &mut lent)?;
    }
    hold_against_search(driver, graph, start, edition, &mut lent)
}

fn hold_against_search<L: Calls>(
    driver: &mut Driver<L>,
    graph: &Graph,
    start: usize,
    edition: usize,
    lent: &mut Lent,
) -> Outcome<()> {
    let end = graph.end(start);
    let outside = end.outside.len() as i64;
    // 02, N3: the mark goes by those that wait for nobody, under every edition.
    let (for_nobody, returned) = (end.for_nobody as i64, i64::from(end.is_returned()));
    // 02, N1: the lowest of those with subordinate 1, who at the end are those outside.
    let escape = end.outside.first().map_or(0, |&process| process as i64);
    // 02, N4: judged by the edition that the area holds, and by the other one put in its place.
    for edition in [edition, 3 - edition] {
        let knot = i64::from(end.is_knot(edition));
        let report = driver.make(Call::Report, lent)?;
        let expected = [end.deliveries as i64, knot, outside, escape, returned];
        if report.number != 0 || report.values[..5] != expected {
            let (number, found) = (report.number, &report.values[..5]);
            let what =
                format!("both report {number}, {found:?}, the graph search has 0, {expected:?}");
            return Err(driver.found(Call::Report, lent, what));
        }
        lent.area[EDITION] = 3 - edition as i32;
    }
    for process in 1..=graph.n {
        let call = Call::ReadRecord { process };
        let record = driver.make(call, lent)?;
        let (reachable, reaching) = (end.reachable[process], end.reaching[process]);
        let (cs, second) = if process == start { (outside, for_nobody) } else { (0, 0) };
        // The father is any that the order gives.
        let father = record.values[5];
        let subordinate = reachable && !reaching;
        let flags = [reachable, reaching, subordinate].map(i64::from);
        let expected = [flags[0], flags[1], flags[2], cs, 0, father, second];
        if record.number != 0 || record.values[..7] != expected {
            let found = &record.values[..7];
            let what = format!("both read {found:?}, the graph search has {expected:?}");
            return Err(driver.found(call, lent, what));
        }
    }
    Ok(())
}

/// N 128 and M 512, where D is 2,048, N 128 with a num of 256, and N 128 with 126 processes that wait
/// for nobody behind one that waits for them all.
fn largest_checks<L: Calls>(driver: &mut Driver<L>, rng: &mut Rng, least: u64) -> Outcome<()> {
    let middle = rng.within(1, MOST_PROCESSES);
    let star = (1..=MOST_PROCESSES).flat_map(|other| [(middle, other), (other, middle)]);
    let mut star: Vec<_> = star.collect();
    star.sort();
    star.dedup();
    let star = Graph { n: MOST_PROCESSES, waits: star };
    let ring = Graph::ring(MOST_PROCESSES, 4);
    let first = middle % MOST_PROCESSES + 1;
    let behind = (1..=MOST_PROCESSES).filter(|&other| other != middle && other != first);
    let fan = behind.map(|other| (middle, other)).chain([(first, middle)]).collect();
    let fan = Graph { n: MOST_PROCESSES, waits: fan };
    let mut turn = 0;
    while driver.calls_in_family() < least {
        turn += 1;
        let (graph, start) = match turn % 5 {
            0 => (star.clone(), rng.within(1, MOST_PROCESSES)),
            1 => (ring.clone(), rng.within(1, MOST_PROCESSES)),
            2 => (fan.clone(), rng.choose(&[first, first, middle])),
            _ => {
                let graph = Graph::draw(rng, Scale::Large);
                let start = rng.within(1, graph.n);
                (graph, start)
            }
        };
        let edition = rng.choose(&EDITIONS);
        check_whole(driver, rng, &graph, start, edition, &[])?;
    }
    Ok(())
}

/// Another value for a word, near the one it has or near a limit.
fn damage_word(rng: &mut Rng, word: i32, graph: &Graph) -> i32 {
    let (n, m) = (graph.n as i32, graph.waits.len() as i32);
    match rng.below(13) {
        0 => -1,
        1 => 0,
        2 => word.wrapping_add(1),
        3 => word.wrapping_sub(1),
        4 => word ^ 1 << rng.below(32),
        5 => rng.word(),
        6 => rng.choose(&[i32::MIN, i32::MAX, i32::MIN + 1, -256, 1 << 16, 1 << 30]),
        7 => rng.choose(&[127, 128, 129, 255, 256, 257, 383, 384, 385, 2047, 2048, 2049]),
        8 => rng.choose(&[-127, -128, -129, 65_535, 65_536]),
        9 => rng.choose(&[n, n + 1, m, m + 1]),
        10 => word.wrapping_neg(),
        11 => ack_word(rng.choose(&COUNTS), rng.choose(&COUNTS)),
        _ => rng.below(10) as i32,
    }
}

/// Every call on the area of `lent`, each on the words as they are now.
fn every_call<L: Calls>(
    driver: &mut Driver<L>,
    rng: &mut Rng,
    n: usize,
    links: &[Link],
    lent: &mut Lent,
) -> Outcome<()> {
    let before = lent.area.clone();
    let links_inside = links.iter().all(|link| link.place + MOST_WAITING <= before.len());
    let waiting = match links_inside {
        true => choose_message(rng, ANY_ORDER, links, &before),
        false => None,
    };
    let pick = match waiting {
        Some((link, _)) if rng.one_in(8) => pick(link, any_place(rng)),
        Some((link, place)) => pick(link, place),
        None => stray_pick(rng, n),
    };
    let record = Call::ReadRecord { process: any_number(rng, n) };
    let run = Call::RunOn { k: any_k(rng) };
    let shuffled = Call::RunShuffled { k: any_k(rng), seed: any_seed(rng) };
    for call in [Call::Report, record, run, shuffled, pick] {
        driver.make(call, lent)?;
        lent.area.copy_from_slice(&before);
    }
    Ok(())
}

/// An area somewhere in a check, with surplus words at times.
fn area_of_a_run<L: Calls>(
    driver: &mut Driver<L>,
    rng: &mut Rng,
    graph: &Graph,
) -> Outcome<(Lent, Vec<Link>)> {
    let start = draw_start(rng, graph);
    let (mut lent, links) = begin(driver, rng, graph, start)?;
    let order = any_order(rng);
    for _ in 0..rng.choose(&[0, 1, 3, 8, 20]) {
        let Some((link, place)) = choose_message(rng, order, &links, &lent.area) else { break };
        driver.make(pick(link, place), &mut lent)?;
    }
    if rng.one_in(6) {
        driver.make(any_run(rng, |_| u32::MAX), &mut lent)?;
    }
    Ok((lent, links))
}

fn damaged_areas<L: Calls>(driver: &mut Driver<L>, rng: &mut Rng, least: u64) -> Outcome<()> {
    while driver.calls_in_family() < least {
        let graph = Graph::any(rng);
        let (mut lent, links) = area_of_a_run(driver, rng, &graph)?;
        // Every word of a small area, some of a large one.
        let length = lent.area.len();
        let places: Vec<usize> = match length {
            0..=400 => (0..length).collect(),
            _ => (0..60).map(|_| rng.below(length)).collect(),
        };
        for place in places {
            let word = lent.area[place];
            let damaged = damage_word(rng, word, &graph);
            if damaged != word {
                lent.area[place] = damaged;
                every_call(driver, rng, graph.n, &links, &mut lent)?;
                lent.area[place] = word;
            }
        }
        // A start does not mind what the area held.
        let place = rng.below(length);
        lent.area[place] = rng.word();
        driver.make(draw_start(rng, &graph), &mut lent)?;
    }
    Ok(())
}

/// A well-formed area of drawn values, with surplus words at times.
fn unreached_area(rng: &mut Rng, graph: &Graph) -> (Lent, Vec<Link>) {
    let table = graph.table(rng);
    let links = links(graph);
    let mut area = draw_area(rng, graph, &table, &links);
    let surplus = rng.choose(&[0, 0, 2, 9]);
    area.extend(noise_words(rng, surplus));
    (Lent { area, ..Lent::default() }, links)
}

fn unreached_areas<L: Calls>(driver: &mut Driver<L>, rng: &mut Rng, least: u64) -> Outcome<()> {
    while driver.calls_in_family() < least {
        let graph = Graph::any(rng);
        let (mut lent, links) = unreached_area(rng, &graph);
        every_call(driver, rng, graph.n, &links, &mut lent)?;
        let order = any_order(rng);
        for _ in 0..rng.choose(&[3, 10, 25]) {
            let call = draw_call(rng, order, graph.n, &links, &lent.area);
            driver.make(call, &mut lent)?;
        }
        every_call(driver, rng, graph.n, &links, &mut lent)?;
    }
    Ok(())
}

/// 0, the places of a link's messages and those beyond (02, N5); the last ones are far out, and some
/// of them are 1 or 2 to whoever takes a part of their bits.
pub const PLACES: [usize; 14] = [
    0,
    1,
    2,
    3,
    4,
    5,
    8,
    (1 << 8) + 1,
    (1 << 16) + 1,
    1 << 31,
    (1 << 32) + 1,
    (1 << 32) + 2,
    1 << 63,
    usize::MAX,
];

/// Each of these places on links with 0 to 4 messages, on the same words.
fn places<L: Calls>(driver: &mut Driver<L>, rng: &mut Rng, least: u64) -> Outcome<()> {
    while driver.calls_in_family() < least {
        let graph = Graph::any(rng);
        let (mut lent, links) = match rng.one_in(2) {
            true => area_of_a_run(driver, rng, &graph)?,
            false => unreached_area(rng, &graph),
        };
        for _ in 0..rng.choose(&[1, 3, 8]) {
            let waiting = choose_message(rng, ANY_ORDER, &links, &lent.area);
            let link = match waiting {
                _ if links.is_empty() => break,
                Some((link, _)) if !rng.one_in(4) => link,
                _ => rng.choose(&links),
            };
            let before = lent.area.clone();
            let mut is_over = false;
            for place in PLACES {
                is_over = driver.make(pick(link, place), &mut lent)?.number == 23;
                lent.area.copy_from_slice(&before);
            }
            match waiting {
                Some((link, place)) if !is_over => driver.make(pick(link, place), &mut lent)?,
                _ => break,
            };
        }
    }
    Ok(())
}

pub const EDITIONS: [usize; 2] = [1, 2];

/// Other editions (02, N4); some of the last are 1 or 2 to whoever takes a part of their bits.
pub const OTHER_EDITIONS: [usize; 12] = [
    0,
    3,
    4,
    (1 << 8) + 1,
    (1 << 16) - 1,
    1 << 16,
    (1 << 16) + 2,
    1 << 32,
    (1 << 32) + 1,
    (1 << 32) + 2,
    usize::MAX - 1,
    usize::MAX,
];

/// Words of an area that name no edition.
pub const OTHER_EDITION_WORDS: [i32; 10] =
    [0, 3, 4, -1, -2, (1 << 8) + 1, (1 << 16) - 1, (1 << 16) + 1, i32::MIN, i32::MAX];

/// Starts under every edition, with and without 8 and 9; whole checks of one start under both; and
/// every word for the edition in an area.
fn editions<L: Calls>(driver: &mut Driver<L>, rng: &mut Rng, least: u64) -> Outcome<()> {
    while driver.calls_in_family() < least {
        let (graph, start) = match rng.one_in(2) {
            true => (Graph::of_a_row(rng), 1),
            false => {
                let graph = Graph::any(rng);
                let start = rng.within(1, graph.n);
                (graph, start)
            }
        };
        start_under_every_edition(driver, rng, &graph, start)?;
        for edition in EDITIONS {
            check_whole(driver, rng, &graph, start, edition, &[])?;
        }
        let (mut lent, links) = match rng.one_in(2) {
            true => area_of_a_run(driver, rng, &graph)?,
            false => unreached_area(rng, &graph),
        };
        for word in OTHER_EDITION_WORDS.into_iter().chain(EDITIONS.map(|edition| edition as i32)) {
            lent.area[EDITION] = word;
            every_call(driver, rng, graph.n, &links, &mut lent)?;
        }
    }
    Ok(())
}

fn start_under_every_edition<L: Calls>(
    driver: &mut Driver<L>,
    rng: &mut Rng,
    graph: &Graph,
    start: usize,
) -> Outcome<()> {
    let needed = graph.words_needed();
    let noise = noise_words(rng, needed);
    let mut lent = Lent { table: graph.table(rng), ..Lent::default() };
    for edition in OTHER_EDITIONS.into_iter().chain(EDITIONS) {
        for start in [start, rng.choose(&[0, graph.n + 1])] {
            for length in [needed, rng.below(needed)] {
                lent.area = noise[..length].to_vec();
                driver.make(Call::Start { start, edition }, &mut lent)?;
            }
        }
    }
    Ok(())
}

/// Sums at the edges of their range, out of it and far out (02, N3); some of the last are in it to
/// whoever takes a part of their bits.
pub const SUMS: [i32; 12] =
    [-129, -128, -1, 0, 1, 128, 129, (1 << 8) + 1, (1 << 16) + 1, -(1 << 16), i32::MIN, i32::MAX];

/// Counts of a message, at the edges of their range and out of it, as far as its word holds them.
pub const COUNTS: [i32; 8] = [-256, -129, -128, 0, 1, 128, 129, 255];

/// Words that are no message, whatever counts are read from them.
const NO_MESSAGES: [i32; 8] =
    [3, 4, 511, -1, -2, -ack_word(0, 0), ack_word(0, 0) + (1 << 18), i32::MIN];

/// Whole checks with processes that wait for nobody and without; and in areas every sum as a second
/// sum, and every two counts on a link (02, N3).
fn second_numbers<L: Calls>(driver: &mut Driver<L>, rng: &mut Rng, least: u64) -> Outcome<()> {
    while driver.calls_in_family() < least {
        let graph = Graph::with_some_for_nobody(rng);
        for edition in EDITIONS {
            let start = rng.within(1, graph.n);
            check_whole(driver, rng, &graph, start, edition, &[])?;
        }
        let (mut lent, links) = match rng.one_in(2) {
            true => area_of_a_run(driver, rng, &graph)?,
            false => unreached_area(rng, &graph),
        };
        let place = record_place(&graph, rng.within(1, graph.n)) + SECOND;
        for sum in SUMS {
            with_word(driver, rng, &graph, &links, &mut lent, place, sum)?;
        }
        let Some((link, message)) = choose_message(rng, ANY_ORDER, &links, &lent.area) else {
            continue;
        };
        let place = link.place + message - 1;
        let counts = COUNTS.iter().flat_map(|&c| COUNTS.iter().map(move |&d| ack_word(c, d)));
        for word in counts.chain(NO_MESSAGES) {
            let before = lent.area.clone();
            lent.area[place] = word;
            driver.make(pick(link, message), &mut lent)?;
            lent.area.copy_from_slice(&before);
            if rng.one_in(4) {
                with_word(driver, rng, &graph, &links, &mut lent, place, word)?;
            }
        }
    }
    Ok(())
}

/// Every call on the area of `lent` with another word at a place.
fn with_word<L: Calls>(
    driver: &mut Driver<L>,
    rng: &mut Rng,
    graph: &Graph,
    links: &[Link],
    lent: &mut Lent,
    place: usize,
    word: i32,
) -> Outcome<()> {
    let held = std::mem::replace(&mut lent.area[place], word);
    every_call(driver, rng, graph.n, links, lent)?;
    lent.area[place] = held;
    Ok(())
}

/// Whole checks, and well-formed areas that no run reaches, by runnings on of 0 to 3 and single picks
/// in turn (02, N11): the area after each shows which links the deliveries were on.
fn small_runs<L: Calls>(driver: &mut Driver<L>, rng: &mut Rng, least: u64) -> Outcome<()> {
    while driver.calls_in_family() < least {
        run_by_few(driver, rng, |rng| Call::RunOn { k: few(rng) })?;
    }
    Ok(())
}

/// The same by shuffled runs (02, N13), at times from the seed of the one before; and whole checks by
/// one of them.
fn shuffled_runs<L: Calls>(driver: &mut Driver<L>, rng: &mut Rng, least: u64) -> Outcome<()> {
    while driver.calls_in_family() < least {
        let mut seed = any_seed(rng);
        run_by_few(driver, rng, |rng| {
            if !rng.one_in(4) {
                seed = any_seed(rng);
            }
            Call::RunShuffled { k: few(rng), seed }
        })?;
        let graph = Graph::any(rng);
        let (start, edition) = (rng.within(1, graph.n), rng.choose(&EDITIONS));
        let (mut lent, _) = begin(driver, rng, &graph, Call::Start { start, edition })?;
        let seed = any_seed(rng).max(1);
        driver.make(Call::RunShuffled { k: rng.choose(&[2048, u32::MAX]), seed }, &mut lent)?;
        hold_against_search(driver, &graph, start, edition, &mut lent)?;
    }
    Ok(())
}

/// A whole check and areas that no run reaches, by drawn runnings on.
fn run_by_few<L: Calls>(
    driver: &mut Driver<L>,
    rng: &mut Rng,
    mut draw_run: impl FnMut(&mut Rng) -> Call,
) -> Outcome<()> {
    let graph = Graph::uneven(rng);
    let (start, edition) = (rng.within(1, graph.n), rng.choose(&EDITIONS));
    let (mut lent, links) = begin(driver, rng, &graph, Call::Start { start, edition })?;
    run_to_the_end(driver, rng, &links, &mut lent, &mut draw_run)?;
    hold_against_search(driver, &graph, start, edition, &mut lent)?;
    for _ in 0..4 {
        let (mut lent, links) = unreached_area(rng, &graph);
        run_to_the_end(driver, rng, &links, &mut lent, &mut draw_run)?;
    }
    Ok(())
}

/// Until the run is over or a running on is refused, but for its seed.
fn run_to_the_end<L: Calls>(
    driver: &mut Driver<L>,
    rng: &mut Rng,
    links: &[Link],
    lent: &mut Lent,
    draw_run: &mut impl FnMut(&mut Rng) -> Call,
) -> Outcome<()> {
    let order = any_order(rng);
    loop {
        let ran = driver.make(draw_run(rng), lent)?;
        if ![0, NO_SEED].contains(&ran.number) || ran.values[0] == 1 {
            return Ok(());
        }
        if rng.one_in(2) {
            if let Some((link, place)) = choose_message(rng, order, links, &lent.area) {
                driver.make(pick(link, place), lent)?;
            }
        }
    }
}

fn surplus_areas<L: Calls>(driver: &mut Driver<L>, rng: &mut Rng, least: u64) -> Outcome<()> {
    while driver.calls_in_family() < least {
        let graph = Graph::any(rng);
        let (mut lent, links) = area_of_a_run(driver, rng, &graph)?;
        let needed = graph.words_needed();
        lent.area.truncate(needed);
        let right = lent.area.clone();
        for _ in 0..4 {
            lent.area.clone_from(&right);
            let surplus = rng.choose(&[1, 2, 16, 20, 100, 1000]);
            lent.area.extend(noise_words(rng, surplus));
            every_call(driver, rng, graph.n, &links, &mut lent)?;
        }
        for length in [needed - 1, rng.below(needed), rng.below(18)] {
            lent.area.clone_from(&right);
            lent.area.truncate(length);
            every_call(driver, rng, graph.n, &links, &mut lent)?;
        }
    }
    Ok(())
}

fn any_words<L: Calls>(driver: &mut Driver<L>, rng: &mut Rng, least: u64) -> Outcome<()> {
    let mut lent = Lent::default();
    while driver.calls_in_family() < least {
        let length = rng.choose(&[0, 1, 14, 15, 16, 17, 24, 44, 52, 100, 300]);
        lent.area = match rng.below(3) {
            0 => noise_words(rng, length),
            1 => (0..length).map(|_| rng.below(4) as i32).collect(),
            _ => vec![0; length],
        };
        let mut n = 1;
        if length >= 16 && !rng.one_in(4) {
            // A heading that is right as far as it goes.
            n = rng.within(1, 4);
            lent.area[..14].fill(0);
            (lent.area[0], lent.area[1]) = (KNOT_CHECK, 1);
            lent.area[EDITION] = rng.within(1, 2) as i32;
            (lent.area[14], lent.area[15]) = (n as i32, rng.below(3) as i32);
        }
        every_call(driver, rng, n, &[], &mut lent)?;
    }
    Ok(())
}

fn steps<L: Calls>(driver: &mut Driver<L>, rng: &mut Rng, least: u64) -> Outcome<()> {
    let mut lent = Lent::default();
    while driver.calls_in_family() < least {
        let extreme = rng.within(1, 6);
        let flag = |rng: &mut Rng| rng.below(2) as u32;
        let mut record = LentRecord {
            succeeding: flag(rng),
            preceding: flag(rng),
            subordinate: flag(rng),
            cs: draw_count(rng, extreme),
            num: draw_num(rng, extreme) as u32,
            father: rng.choose(&[0, 1, 2, 127, 128]),
            second: draw_count(rng, extreme),
        };
        let mut received = Received {
            kind: rng.choose(&[1, 1, 2, 2, 3, 3, 3]),
            count: draw_count(rng, extreme),
            second_count: draw_count(rng, extreme),
            out_degree: rng.choose(&[0, 0, 1, 2, 100, 127, 128]),
            in_degree: rng.choose(&[0, 0, 1, 2, 100, 127, 128]),
            sender: rng.choose(&[1, 1, 2, 3, 127, 128]),
        };
        for _ in 0..rng.choose(&[0, 0, 0, 0, 1, 1, 2]) {
            damage_step(rng, &mut record, &mut received);
        }
        driver.make(Call::Step { record, received }, &mut lent)?;
    }
    Ok(())
}

fn damage_step(rng: &mut Rng, record: &mut LentRecord, received: &mut Received) {
    let wide = rng.choose(&[i32::MIN, -257, -130, -129, 129, 130, 256, 65_537, i32::MAX]);
    let flag = rng.choose(&[2, 3, 256, u32::MAX]);
    let over = rng.choose(&[129, 130, 256, 65_536, u32::MAX]);
    match rng.below(14) {
        0 => record.succeeding = flag,
        1 => record.preceding = flag,
        2 => record.subordinate = flag,
        3 => record.cs = wide,
        4 => record.num = rng.choose(&[257, 258, 65_536, u32::MAX]),
        5 => record.father = over,
        6 => received.kind = rng.choose(&[0, 4, 255, 257, u32::MAX]),
        7 => received.count = wide,
        8 => received.out_degree = over,
        9 => received.in_degree = over,
        10 => received.sender = 0,
        11 => record.second = wide,
        12 => received.second_count = wide,
        _ => received.sender = over,
    }
}
