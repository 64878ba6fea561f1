//! Enter and a fresh start. A survey sees the directory as its tidy would leave it; nothing is written before nothing can refuse, and then
//! only the segments that change.
use crate::files::{at_door, find_file};
use crate::words::*;
use crate::{refused, Answer, Name};

/// An area after the tidy: how many entries of its segment stand before it, its length, its cost in slots, and its first block.
#[derive(Clone, Copy)]
struct Area {
    before: usize,
    length: u16,
    cost: usize,
    first: u16,
}

/// A segment after the tidy: how many entries it has, whether an area is among them, and whether the tidy changes it.
struct Outline {
    count: usize,
    areas: bool,
    untidy: bool,
}

/// The area that is taken, its segment, and how many entries that segment has.
#[derive(Clone, Copy)]
struct Spot {
    number: usize,
    count: usize,
    area: Area,
}

/// What the areas are like: whether one has the least length; the first eligible one that has, and the first of the longest eligible ones;
/// the longest eligible lengths; and, a bit for each, the segments that the tidy changes.
struct Survey {
    long: bool,
    fit: Option<Spot>,
    best: Option<Spot>,
    longest: u16,
    second: u16,
    untidy: u32,
}

/// The areas of a segment after the tidy, in order.
#[inline(always)]
fn each_area(g: &[u16; 512], width: usize, mut meet: impl FnMut(Area)) {
    let (mut before, mut block) = (0, g[4]);
    let mut at = 5;
    let mut tentative = false;
    while g[at] != END {
        if g[at] != EMPTY {
            tentative = g[at] == TENTATIVE;
            block += g[at + 4];
            before += 1;
            at += width;
            continue;
        }
        let first = block;
        while g[at] == EMPTY {
            block += g[at + 4];
            at += width;
        }
        if block != first || tentative {
            meet(Area { before, length: block - first, cost: 1 + tentative as usize, first });
            before += 1;
        }
        tentative = false;
    }
}

/// One walk over a segment; None where this channel word is open there.
#[inline(always)]
fn outline(g: &[u16; 512], width: usize, word: u16) -> Option<Outline> {
    let mut found = Outline { count: 0, areas: false, untidy: false };
    let (mut slot, mut before) = (0, PERMANENT);
    let (mut held, mut sum) = (false, 0);
    for e in slots(g, width) {
        if e[0] == EMPTY {
            if before != EMPTY {
                (held, sum) = (before == TENTATIVE, 0);
                found.count += 1;
            }
            sum += e[4];
            found.areas = true;
        } else {
            found.count -= (before == EMPTY && sum == 0 && !held) as usize;
            if e[0] == END {
                break;
            }
            if e[0] == TENTATIVE && e[5] == word {
                return None;
            }
            found.count += 1;
        }
        before = e[0];
        slot += 1;
    }
    found.untidy = found.count != slot;
    Some(found)
}

impl Survey {
    fn meet(&mut self, area: Area, outline: &Outline, number: usize, room: usize, spare: bool, least: u16) {
        self.long |= area.length >= least;
        if area.length < 1 || (outline.count + area.cost > room && !spare) {
            return;
        }
        let spot = Spot { number, count: outline.count, area };
        if area.length >= least && self.fit.is_none() {
            self.fit = Some(spot);
        }
        if area.length > self.longest {
            self.best = Some(spot);
            (self.longest, self.second) = (area.length, self.longest);
        } else {
            self.second = self.second.max(area.length);
        }
    }
}

/// All areas; None where this channel word is open.
fn survey(d: &[u16], word: u16, least: u16) -> Option<Survey> {
    let (width, spare) = (width_of(d), d[2] < d[0]);
    let room = capacity(width);
    let mut found = Survey { long: false, fit: None, best: None, longest: 0, second: 0, untidy: 0 };
    let mut number = 1;
    while number != 0 {
        let g = segment(d, number);
        let outline = outline(g, width, word)?;
        if outline.areas {
            found.untidy |= (outline.untidy as u32) << number;
            each_area(g, width, |area| found.meet(area, &outline, number, room, spare, least));
        }
        number = g[1] as usize;
    }
    Some(found)
}

/// The spot of this size, and how many blocks it comes to.
fn choose(d: &[u16], word: u16, size: i32, found: &Survey) -> Option<(Spot, u16)> {
    match size {
        -1 => Some((found.best?, found.longest)),
        0 => {
            let blocks = found.longest.div_ceil(2).max(found.second);
            Some((survey(d, word, blocks)?.fit?, blocks))
        }
        n => Some((found.fit?, n as u16)),
    }
}

/// Runs of empty entries joined, in place.
fn tidy(g: &mut [u16; 512], width: usize) {
    let (mut at, mut to) = (5, 5);
    let mut tentative = false;
    while g[at] != END {
        if g[at] != EMPTY {
            tentative = g[at] == TENTATIVE;
            g.copy_within(at..at + width, to);
            at += width;
            to += width;
            continue;
        }
        let (first, mut sum) = (at, 0);
        while g[at] == EMPTY {
            sum += g[at + 4];
            at += width;
        }
        if sum != 0 || tentative {
            g.copy_within(first..first + width, to);
            g[to + 4] = sum;
            to += width;
        }
        tentative = false;
    }
    finish(g, to);
}

/// The new entry before its area, in a segment of `count` entries that has the slots.
fn insert(g: &mut [u16; 512], width: usize, count: usize, area: Area, new: [u16; 7]) {
    let (mut at, end, shift) = (5 + width * area.before, 5 + width * count, width * area.cost);
    g.copy_within(at..end, at + shift);
    g[at..at + shift].fill(0);
    if area.cost == 2 {
        g[at] = EMPTY;
        at += width;
    }
    g[at..at + 7].copy_from_slice(&new);
    g[at + width + 4] -= new[4];
    finish(g, end + shift);
}

/// The spot after its segment is split in two.
fn split(d: &mut [u16], width: usize, spot: Spot) -> Spot {
    let g = segment_mut(d, spot.number);
    let (link, first) = (g[1], g[4]);
    let mut kept = spot.count / 2;
    kept += (g[5 + width * (kept - 1)] == TENTATIVE) as usize;
    let sum: u16 = slots(g, width).take(kept).map(|e| e[4]).sum();
    let next = d[2] as usize + 1;
    let (from, to) = (512 * (spot.number - 1) + 5, 512 * (next - 1));
    d.copy_within(from + width * kept..from + width * spot.count, to + 5);
    d[2] = next as u16;
    let head = [d[0], link, 0, d[3], first + sum];
    d[to..to + 5].copy_from_slice(&head);
    finish(segment_mut(d, next), 5 + width * (spot.count - kept));
    let g = segment_mut(d, spot.number);
    g[1] = next as u16;
    finish(g, 5 + width * kept);
    if spot.area.before < kept {
        return Spot { count: kept, ..spot };
    }
    Spot { number: next, count: spot.count - kept, area: Area { before: spot.area.before - kept, ..spot.area } }
}

/// Enter on a sound directory.
pub fn enter_sound(d: &mut [u16], name: Name, size: i32, job: u16, channel: u16, date: u16) -> Answer {
    if !is_legal_name(name) {
        return refused(7);
    }
    if name == FILE_BAD {
        return refused(19);
    }
    if !is_channel(job, channel) {
        return refused(8);
    }
    if !(-1..=65535).contains(&size) || (date != 0 && day_of(date).is_none()) {
        return refused(9);
    }
    let word = job * 256 + channel;
    let Some(found) = survey(d, word, size.max(1) as u16) else {
        return refused(10);
    };
    if find_file(d, name).is_some_and(|old| d[old.at] == PROTECTED) {
        return refused(20);
    }
    if found.fit.is_none() {
        return refused(if found.long { 12 } else { 11 });
    }
    let Some((spot, blocks)) = choose(d, word, size, &found) else {
        unreachable!()
    };
    let first = spot.area.first;
    let placed = place(d, found.untidy, spot, [TENTATIVE, name.first, name.second, name.extension, blocks, word, date]);
    let (segment, slot) = (placed.number as u16, (placed.area.before + placed.area.cost) as u16);
    Answer { number: 0, first, length: blocks, date, segment, slot }
}

/// Every untidy segment is tidied, and the new entry put into its spot, which is answered as it is after a split.
fn place(d: &mut [u16], untidy: u32, mut spot: Spot, new: [u16; 7]) -> Spot {
    let width = width_of(d);
    for number in 1..32 {
        if untidy >> number & 1 == 1 {
            tidy(segment_mut(d, number), width);
        }
    }
    if spot.count + spot.area.cost > capacity(width) {
        spot = split(d, width, spot);
    }
    insert(segment_mut(d, spot.number), width, spot.count, spot.area, new);
    spot
}

#[inline(never)]
pub fn enter(d: &mut [u16], v: usize, name: Name, size: i32, job: u16, channel: u16, date: u16) -> Answer {
    at_door(d, v, |d| enter_sound(d, name, size, job, channel, date))
}

#[inline(never)]
pub fn fresh(d: &mut [u16], v: usize, extra: usize) -> Answer {
    let n = d.len() / 512;
    let first = 6 + 2 * n;
    if d.len() % 512 != 0 || !(1..=31).contains(&n) || v < first || v > 65535 {
        return refused(1);
    }
    if extra > 16 {
        return refused(2);
    }
    d.fill(0);
    d[..6].copy_from_slice(&[n as u16, 0, 1, 2 * extra as u16, first as u16, EMPTY]);
    d[9] = (v - first) as u16;
    d[12 + extra] = END;
    Answer { number: 0, first: first as u16, length: (v - first) as u16, date: 0, segment: 1, slot: 1 }
}
