//! Squeeze: one walk that only reads, and judges; then one that lists the moves and packs each segment in place. Throughout, `gap` is what
//! is left over since the last FILE.BAD: files come forward by so many blocks.
use crate::sound::fault;
use crate::words::*;

/// How many moves a sound directory takes, or the number of the refusal.
fn judge(d: &[u16], room: usize) -> Result<usize, u16> {
    let width = width_of(d);
    let (mut gap, mut moves, mut over) = (0, 0, false);
    let mut number = 1;
    while number != 0 {
        let g = segment(d, number);
        let mut count = 0;
        for e in slots(g, width) {
            if is_permanent(e[0]) {
                if gap != 0 {
                    if file_key(e) == SPARED {
                        gap = 0;
                        count += 1;
                    } else {
                        moves += (e[4] != 0) as usize;
                    }
                }
                count += 1;
            } else if e[0] == EMPTY {
                gap += e[4];
            } else if e[0] == TENTATIVE {
                return Err(21);
            } else {
                break;
            }
        }
        number = g[1] as usize;
        count += (number == 0 && gap != 0) as usize;
        over |= count > capacity(width);
    }
    if room < 3 * moves {
        return Err(24);
    }
    if over {
        return Err(26);
    }
    Ok(moves)
}

/// The moves of a run of files, which ends before an area, the marker, or a FILE.BAD that has a gap before it. Answers the slot where it
/// ends. A loop of its own, without calls, so that all it needs stays in registers.
#[inline(always)]
fn list_run(g: &[u16; 512], width: usize, mut at: usize, block: &mut u16, gap: u16, list: &mut impl FnMut([u16; 3])) -> usize {
    for e in slots_from(g, at, width) {
        if !is_permanent(e[0]) || gap != 0 && file_key(e) == SPARED {
            break;
        }
        if gap != 0 && e[4] != 0 {
            list([*block, *block - gap, e[4]]);
        }
        *block += e[4];
        at += width;
    }
    at
}

/// Where no slot before this one has become free, the rest of the segment goes up by one; at most the marker falls off its end. Answers
/// where the slot is then.
fn make_room(g: &mut [u16; 512], width: usize, at: usize, to: usize) -> usize {
    if to < at {
        return at;
    }
    g.copy_within(at..512 - width, at + width);
    at + width
}

/// What is left over as an empty entry, if it is not 0. Answers the place after it.
fn put_left(g: &mut [u16; 512], width: usize, at: usize, gap: u16) -> usize {
    if gap == 0 {
        return at;
    }
    let entry = &mut g[at..at + width];
    entry.fill(0);
    entry[0] = EMPTY;
    entry[4] = gap;
    at + width
}

/// A segment packed in place, a run of files at a time. Answers the gap behind it.
#[inline(always)]
fn pack(g: &mut [u16; 512], width: usize, mut gap: u16, mut list: impl FnMut([u16; 3])) -> u16 {
    let mut block = g[4];
    g[4] -= gap;
    let (mut at, mut to) = (5, 5);
    loop {
        let end = list_run(g, width, at, &mut block, gap, &mut list);
        g.copy_within(at..end, to);
        to += end - at;
        at = end;
        if at + width > 512 || g[at] == END {
            break;
        }
        if g[at] == EMPTY {
            gap += g[at + 4];
            block += g[at + 4];
            at += width;
        } else {
            at = make_room(g, width, at, to);
            to = put_left(g, width, to, gap);
            gap = 0;
        }
    }
    if g[1] == 0 {
        to = put_left(g, width, to, gap);
    }
    finish(g, to);
    gap
}

/// Number and count of moves.
#[inline(never)]
pub fn squeeze(d: &mut [u16], v: usize, list: &mut [u16]) -> (u16, usize) {
    let number = fault(d, v);
    if number != 0 {
        return (number, 0);
    }
    let moves = match judge(d, list.len()) {
        Ok(moves) => moves,
        Err(number) => return (number, 0),
    };
    let width = width_of(d);
    let mut rooms = list.chunks_exact_mut(3);
    let (mut number, mut gap) = (1, 0);
    while number != 0 {
        let g = segment_mut(d, number);
        number = g[1] as usize;
        gap = pack(g, width, gap, |moved| rooms.next().unwrap().copy_from_slice(&moved));
    }
    (0, moves)
}
