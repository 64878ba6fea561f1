//! Directories to squeeze, of all forms, made from a seed.
use crate::streams;
use crate::volumes::{numbered, Random, Volume};
use ordinary::{Name, FILE_BAD};

/// Of 100 entries so many are FILE.BADs, areas and open ones; the others are files. Every segment is full, or as chance has it.
struct Mix {
    bad: usize,
    areas: usize,
    open: usize,
    full: bool,
}

fn some_mix(random: &mut Random) -> Mix {
    Mix {
        bad: [0, 3, 30][random.below(3)],
        areas: [0, 5, 40][random.below(3)],
        open: [0, 0, 0, 2][random.below(4)],
        full: random.below(3) == 0,
    }
}

/// Statuses and names of some entries, the k-th of a volume: an open one has an area behind it, where two can stand.
fn some_entries(k: usize, room: usize, mix: &Mix, random: &mut Random) -> Vec<(u16, Name)> {
    let file = [1024, 1024, 1024, 33792][random.below(4)];
    match random.below(100) {
        p if p < mix.bad => vec![(file, FILE_BAD)],
        p if p < mix.bad + mix.areas => vec![(512, random.name())],
        p if p < mix.bad + mix.areas + mix.open && room > 1 => vec![(256, random.name()), (512, random.name())],
        _ => vec![(file, numbered(k))],
    }
}

/// Entries for a segment of this capacity, the first of them the k-th of the volume.
fn some_segment(k: usize, capacity: usize, mix: &Mix, random: &mut Random) -> Vec<(u16, Name)> {
    let count = if mix.full { capacity } else { random.below(capacity + 1) };
    let mut entries = Vec::new();
    while entries.len() < count {
        let more = some_entries(k + entries.len(), count - entries.len(), mix, random);
        entries.extend(more);
    }
    entries
}

/// These entries, with lengths of less than `most` blocks, and the marker. Answers the sum of the lengths.
fn put_entries(g: &mut [u16], width: usize, entries: &[(u16, Name)], k: usize, most: usize, random: &mut Random) -> usize {
    let mut sum = 0;
    for (i, (e, (status, name))) in g[5..].chunks_exact_mut(width).zip(entries).enumerate() {
        let length = [0, 1, 1, random.below(most)][random.below(4)];
        e[..5].copy_from_slice(&[*status, name.first, name.second, name.extension, length as u16]);
        if *status == 256 {
            e[5] = (k + i) as u16; // no channel stands twice
        }
        sum += length;
    }
    g[5 + width * entries.len()] = 2048;
    sum
}

/// The segments in use, in an order of chance from the first on, and a 0 behind them.
fn some_chain(highest: usize, random: &mut Random) -> Vec<usize> {
    let mut others: Vec<usize> = (2..=highest).collect();
    random.shuffle(&mut others);
    [vec![1], others, vec![0]].concat()
}

/// A sound directory, one in eight of 31 segments. All words that the rules leave free are any.
pub fn any_volume(random: &mut Random) -> Volume {
    let n = if random.below(8) == 0 { 31 } else { 1 + random.below(5) };
    let highest = if random.below(2) == 0 { n } else { 1 + random.below(n) };
    let most = if n == 31 { 20 } else { [20, 600][random.below(2)] };
    let (extra, mix) = ([0, 0, 1, 10, 16][random.below(5)], some_mix(random));
    let width = 7 + extra;
    let mut words = streams::words(512 * n, random);
    let (mut block, mut k) = (6 + 2 * n, 0);
    for pair in some_chain(highest, random).windows(2) {
        let g = &mut words[512 * (pair[0] - 1)..512 * pair[0]];
        (g[0], g[1], g[3], g[4]) = (n as u16, pair[1] as u16, 2 * extra as u16, block as u16);
        let entries = some_segment(k, 507 / width - 1, &mix, random);
        block += put_entries(g, width, &entries, k, most, random);
        k += entries.len();
    }
    words[2] = highest as u16;
    Volume { words, v: block }
}
