//! Rules 1 to 6: the links first, and then all else in one walk over the entries.
use crate::words::*;

/// The number of the smallest fault, or 0. The table of names is as large as the segments in use call for.
#[inline(never)]
pub fn fault(d: &[u16], v: usize) -> u16 {
    let n = d.len() / 512;
    if d.len() % 512 != 0 || !(1..=31).contains(&n) || v < 6 + 2 * n || v > 65535 {
        return 1;
    }
    let (highest, extra) = (d[2] as usize, d[3]);
    if d[0] as usize != n || !(1..=n).contains(&highest) || extra % 2 != 0 || extra > 32 {
        return 2;
    }
    if !links_right(d, highest) {
        return 3;
    }
    match highest {
        1 => entries_fault::<8, 256>(d, v),
        2..=7 => entries_fault::<10, 1024>(d, v),
        8..=15 => entries_fault::<12, 4096>(d, v),
        _ => entries_fault::<14, 16384>(d, v),
    }
}

/// Where the last of H links gives 0, none came twice.
fn links_right(d: &[u16], highest: usize) -> bool {
    let mut number = 1;
    for _ in 0..highest {
        if !(1..=highest).contains(&number) {
            return false;
        }
        let g = segment(d, number);
        if g[0] != d[0] || g[3] != d[3] {
            return false;
        }
        number = g[1] as usize;
    }
    number == 0
}

/// Names and channel words met so far: an open table of the places of their entries.
struct Met<const BITS: u32, const SIZE: usize> {
    places: [u16; SIZE],
}

impl<const BITS: u32, const SIZE: usize> Met<BITS, SIZE> {
    /// Whether the key stood there; it does from now on.
    #[inline(always)]
    fn again(&mut self, d: &[u16], key: u64, place: usize) -> bool {
        let mut i = (key.wrapping_mul(0x9e37_79b9_7f4a_7c15) >> (64 - BITS)) as usize;
        loop {
            let other = self.places[i % SIZE] as usize;
            if other == 0 {
                self.places[i % SIZE] = place as u16;
                return false;
            }
            if d[other..].first_chunk().is_some_and(|e| key_of(e) == key) {
                return true;
            }
            i += 1;
        }
    }
}

/// What may not stand twice: status and name, or status and channel word.
#[inline(always)]
fn key_of(e: &[u16; 7]) -> u64 {
    if e[0] == TENTATIVE {
        return four([TENTATIVE, e[5], 0, 0]);
    }
    file_key(e)
}

/// Whether a name word spells no three characters.
#[inline(always)]
fn is_long(e: &[u16; 7]) -> bool {
    e[1] > 63999 || e[2] > 63999 || e[3] > 63999
}

/// The slots of a segment: the sum of their lengths, and whether a key came again; None for a fault by rule 4.
#[inline(always)]
fn slots_fault<const B: u32, const S: usize>(d: &[u16], number: usize, width: usize, met: &mut Met<B, S>) -> Option<(usize, bool)> {
    let mut place = 512 * (number - 1) + 5;
    let (mut owed, mut twice, mut sum) = (false, false, 0);
    for e in slots(segment(d, number), width) {
        if is_permanent(e[0]) {
            if owed || is_long(e) {
                return None;
            }
            let key = file_key(e);
            twice |= key != SPARED && met.again(d, key, place);
        } else if e[0] == TENTATIVE {
            if owed || is_long(e) {
                return None;
            }
            owed = true;
            twice |= met.again(d, four([TENTATIVE, e[5], 0, 0]), place);
        } else if e[0] == EMPTY {
            owed = false;
        } else {
            return (e[0] == END && !owed).then_some((sum, twice));
        }
        sum += e[4] as usize;
        place += width;
    }
    None
}

/// Rules 4 to 6.
fn entries_fault<const BITS: u32, const SIZE: usize>(d: &[u16], v: usize) -> u16 {
    let width = width_of(d);
    let mut met = Met::<BITS, SIZE> { places: [0; SIZE] };
    let (mut joined, mut twice) = (true, false);
    let mut block = 6 + 2 * (d.len() / 512);
    let mut number = 1;
    while number != 0 {
        let Some((sum, again)) = slots_fault(d, number, width, &mut met) else {
            return 4;
        };
        let g = segment(d, number);
        joined &= g[4] as usize == block;
        twice |= again;
        block += sum;
        number = g[1] as usize;
    }
    if !joined || block != v {
        return 5;
    }
    if twice {
        6
    } else {
        0
    }
}
