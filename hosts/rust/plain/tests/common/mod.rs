//! What the tests share; each of them uses a part of it.
#![allow(dead_code)]

use plain::*;

pub fn table(n: usize, list: &[u16]) -> Vec<u8> {
    let mut out = vec![0; 4 + 4 * 128 + 8 * 512];
    let length = write_table(n, list, &mut out).expect("a right list");
    out.truncate(length);
    out
}

pub fn started_under(edition: usize, n: usize, list: &[u16], first: usize) -> Vec<i32> {
    let table = table(n, list);
    let mut area = vec![0; words_needed(read_table(&table).unwrap())];
    start(&table, first, edition, &mut area).unwrap();
    area
}

/// Every set of waits of up to three processes: N and the waits.
pub fn small_sets() -> impl Iterator<Item = (usize, Vec<u16>)> {
    let sets = (1..=3).flat_map(|n| (0..1 << (n * n)).map(move |set: u16| (n, set)));
    sets.map(|(n, set)| {
        let chosen = (0..n * n).filter(|pair| set >> pair & 1 == 1);
        (usize::from(n), chosen.flat_map(|pair| [pair / n + 1, pair % n + 1]).collect())
    })
}

pub fn printed(input: &[u8]) -> String {
    let mut out = Vec::new();
    check_program(input, &mut out);
    String::from_utf8(out).unwrap()
}

/// A link: its sender, its receiver, and the word where it begins.
pub type Link = (usize, usize, usize);

/// Every link: the first of each arc, and the second if there is no arc back.
pub fn links(n: usize, list: &[u16]) -> Vec<Link> {
    let arcs: Vec<_> = list.chunks(2).map(|arc| (arc[0].into(), arc[1].into())).collect();
    let mut links = Vec::new();
    for (number, &(from, to)) in arcs.iter().enumerate() {
        let first = 16 + 8 * n + 4 * arcs.len() + 16 * number;
        links.push((from, to, first));
        if !arcs.contains(&(to, from)) {
            links.push((to, from, first + 8));
        }
    }
    links
}

/// The messages on a link, oldest first.
pub fn waiting(area: &[i32], link: usize) -> Vec<i32> {
    area[link..link + 4].iter().copied().take_while(|&code| code != 0).collect()
}

/// Running on by picks of the oldest message, each on the link that is chosen among those with a message.
pub fn run_by_picks(
    area: &mut [i32],
    links: &[Link],
    k: u32,
    mut choose: impl FnMut(Vec<Link>) -> Option<Link>,
) -> (Stopped, u32) {
    let mut made = 0;
    loop {
        match report(area) {
            Ok(_) => return (Stopped::Over, made),
            Err(Refusal::NotOver) if made < k => {}
            Err(Refusal::NotOver) => return (Stopped::Spent, made),
            Err(refusal) => return (Stopped::Refused(refusal), made),
        }
        let Some((from, to, _)) = choose(with_a_message(area, links)) else {
            return (Stopped::Refused(Refusal::Nothing), made);
        };
        if let Err(refusal) = pick(area, from, to, 1) {
            return (Stopped::Refused(refusal), made);
        }
        made += 1;
    }
}

/// The links on which a message waits.
pub fn with_a_message(area: &[i32], links: &[Link]) -> Vec<Link> {
    links.iter().copied().filter(|link| !waiting(area, link.2).is_empty()).collect()
}

/// Of 128 processes, each with an acknowledgement to the one in the middle and from it, started at the
/// last, which waits for more than all of them: no run leaves so many. Nobody sends anything on them.
/// Gives the area and its links.
pub fn a_message_on_each_link() -> (Vec<i32>, Vec<Link>) {
    let (n, middle) = (128, 64);
    let list: Vec<u16> = (1..=n as u16).flat_map(|other| [middle, other]).collect();
    let links = links(n, &list);
    let mut area = started_under(1, n, &list, n);
    for process in 1..=n {
        area[16 + 2 * n + 4 * n + 6 * (process - 1) + 2] = 256;
    }
    for &(.., link) in &links {
        area[link] = 256 + 512 * 256;
        area[link + 1..link + 4].fill(0);
    }
    (area, links)
}

/// The area with 0 for every father.
pub fn without_fathers(area: &[i32]) -> Vec<i32> {
    let mut area = area.to_vec();
    let (n, m) = (area[14] as usize, area[15] as usize);
    (0..n).for_each(|process| area[16 + 2 * n + 4 * m + 6 * process + 3] = 0);
    area
}
