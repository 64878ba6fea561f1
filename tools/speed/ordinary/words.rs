//! The words of a directory: statuses, segments, entries, and the tests of names, channels and dates.
use crate::Name;

pub const TENTATIVE: u16 = 256;
pub const EMPTY: u16 = 512;
pub const PERMANENT: u16 = 1024;
pub const END: u16 = 2048;

/// A permanent entry may have the protection bit.
pub const PROTECTED: u16 = PERMANENT | 1 << 15;

pub fn is_permanent(status: u16) -> bool {
    status & !(1 << 15) == PERMANENT
}

/// The highest channel of a job.
pub const CHANNEL_LIMIT: u16 = 255;

/// FILE.BAD, the one name that may stand more than once.
pub const FILE_BAD: Name = Name { first: 9972, second: 8000, extension: 3244 };

/// The words of a slot.
pub fn width_of(d: &[u16]) -> usize {
    7 + d[3] as usize / 2
}

/// The entries that a segment can hold; the marker takes a slot.
pub fn capacity(width: usize) -> usize {
    507 / width - 1
}

pub fn segment(d: &[u16], number: usize) -> &[u16; 512] {
    d[512 * (number - 1)..].first_chunk().unwrap()
}

pub fn segment_mut(d: &mut [u16], number: usize) -> &mut [u16; 512] {
    d[512 * (number - 1)..].first_chunk_mut().unwrap()
}

/// The slots of a segment, each as its first seven words.
pub fn slots(g: &[u16; 512], width: usize) -> impl Iterator<Item = &[u16; 7]> {
    slots_from(g, 5, width)
}

/// Those from this place on.
pub fn slots_from(g: &[u16; 512], at: usize, width: usize) -> impl Iterator<Item = &[u16; 7]> {
    g[at..].chunks_exact(width).map(|slot| slot.first_chunk().unwrap())
}

/// Four words as one number, the first the lowest: a load of eight bytes. The one unsafe line, since safe Rust makes four loads of it; any
/// eight bytes are a u64.
#[allow(unsafe_code)]
pub fn four(words: [u16; 4]) -> u64 {
    u64::from_le(unsafe { core::mem::transmute::<[u16; 4], u64>(words) })
}

/// Status and name of a permanent entry, the same with the protection bit and without.
#[inline(always)]
pub fn file_key(e: &[u16; 7]) -> u64 {
    four(*e.first_chunk().unwrap()) & !(1 << 15)
}

/// The key of a file FILE.BAD, which may stand any number of times; the status is the lowest word.
pub const SPARED: u64 =
    PERMANENT as u64 | (FILE_BAD.first as u64) << 16 | (FILE_BAD.second as u64) << 32 | (FILE_BAD.extension as u64) << 48;

/// The marker, and zeros after it.
pub fn finish(g: &mut [u16; 512], at: usize) {
    g[at] = END;
    g[at + 1..].fill(0);
}

fn codes(word: u16) -> [u16; 3] {
    [word / 1600, word / 40 % 40, word % 40]
}

/// Letters and digits, then spaces alone.
fn padded(chars: &[u16]) -> bool {
    let used = chars.iter().position(|&c| c == 0).unwrap_or(chars.len());
    chars[..used].iter().all(|&c| c <= 26 || c >= 30) && chars[used..].iter().all(|&c| c == 0)
}

pub fn is_legal_name(name: Name) -> bool {
    if name.first > 63999 || name.second > 63999 || name.extension > 63999 {
        return false;
    }
    let ([a, b, c], [d, e, f]) = (codes(name.first), codes(name.second));
    a != 0 && padded(&[a, b, c, d, e, f]) && padded(&codes(name.extension))
}

pub fn is_channel(job: u16, channel: u16) -> bool {
    (job == 0 || job == 2) && channel <= CHANNEL_LIMIT
}

/// Day, month and year of a date word that names a calendar day. The top two bits are the age.
pub fn day_of(word: u16) -> Option<(u16, u16, u16)> {
    const DAYS: [u16; 16] = [0, 31, 28, 31, 30, 31, 30, 31, 31, 30, 31, 30, 31, 0, 0, 0];
    let (month, day, year) = (word >> 10 & 15, word >> 5 & 31, 1972 + 32 * (word >> 14) + (word & 31));
    let leap = year % 4 == 0; // of 1972 to 2099, as 2000 is one
    let days = DAYS[month as usize] + (month == 2 && leap) as u16;
    (day >= 1 && day <= days).then_some((day, month, year))
}
