//! Absolute load files. A stream is checked as a whole before anything is stored, as a refusal must leave the memory unchanged; then its
//! headers are known to be right.

/// The data bytes of a block that is written.
const FULL: usize = 128;

/// How many bytes of the memory a load file can have.
pub(crate) fn size_of(words: &[u16]) -> usize {
    (2 * words.len()).min(65536)
}

/// Header and checksum of a block are seven bytes.
fn file_size(count: usize) -> usize {
    count + 7 * count.div_ceil(FULL) + 7
}

pub(crate) fn sum(bytes: &[u8]) -> u8 {
    bytes.iter().fold(0, |sum, &byte| sum.wrapping_add(byte))
}

pub(crate) fn pair(low: u8, high: u8) -> usize {
    u16::from_le_bytes([low, high]) as usize
}

/// The number where no whole header stands.
#[cold]
fn no_header(rest: &[u8]) -> u16 {
    match *rest {
        [1, 0, c, d, ..] if pair(c, d) < 6 => 28,
        [] | [1] | [1, 0, ..] => 30,
        _ => 27,
    }
}

/// The transfer address, or the number of the refusal.
fn check(mut rest: &[u8], size: usize) -> Result<u16, u16> {
    loop {
        let (count, address) = match *rest {
            [0, ..] => {
                rest = &rest[1..];
                continue;
            }
            [1, 0, c, d, a, b, ..] => (pair(c, d), pair(a, b)),
            _ => return Err(no_header(rest)),
        };
        if count < 6 {
            return Err(28);
        }
        if count > 6 && size < address + count - 6 {
            return Err(29);
        }
        let Some((block, next)) = rest.split_at_checked(count + 1) else {
            return Err(30);
        };
        if sum(block) != 0 {
            return Err(31);
        }
        if count == 6 {
            return Ok(address as u16);
        }
        rest = next;
    }
}

/// Bytes into the memory: whole words where the address is even, and single bytes at odd ends.
pub(crate) fn put(words: &mut [u16], address: usize, mut bytes: &[u8]) {
    let mut words = &mut words[address / 2..];
    if address % 2 == 1 {
        words[0] = u16::from_le_bytes([words[0] as u8, bytes[0]]);
        words = &mut words[1..];
        bytes = &bytes[1..];
    }
    let (whole, last) = words.split_at_mut(bytes.len() / 2);
    let pairs = bytes.chunks_exact(2);
    if let [byte] = *pairs.remainder() {
        last[0] = last[0] & 0xff00 | byte as u16;
    }
    for (word, pair) in whole.iter_mut().zip(pairs) {
        *word = u16::from_le_bytes([pair[0], pair[1]]);
    }
}

/// The data of a stream that was checked: what is no header of data is the end block.
fn store(mut rest: &[u8], words: &mut [u16]) {
    loop {
        match *rest {
            [0, ..] => rest = &rest[1..],
            [1, 0, c, d, a, b, ..] if pair(c, d) > 6 => {
                let count = pair(c, d);
                put(words, pair(a, b), &rest[6..count]);
                rest = &rest[count + 1..];
            }
            _ => return,
        }
    }
}

/// Number and transfer address.
#[inline(never)]
pub fn load(stream: &[u8], words: &mut [u16]) -> (u16, u16) {
    match check(stream, size_of(words)) {
        Ok(transfer) => {
            store(stream, words);
            (0, transfer)
        }
        Err(number) => (number, 0),
    }
}

/// Bytes from the memory, the other way round, and their sum: it is made of the words, since bytes that were just written are slow to read.
#[inline(always)]
fn get(words: &[u16], address: usize, mut bytes: &mut [u8]) -> u8 {
    let mut words = &words[address / 2..];
    let mut sum = 0;
    if address % 2 == 1 {
        sum = words[0] >> 8;
        bytes[0] = sum as u8;
        words = &words[1..];
        bytes = &mut bytes[1..];
    }
    let (whole, last) = words.split_at(bytes.len() / 2);
    let (pairs, end) = bytes.split_at_mut(2 * whole.len());
    for (word, pair) in whole.iter().zip(pairs.chunks_exact_mut(2)) {
        pair.copy_from_slice(&word.to_le_bytes());
    }
    sum = whole.iter().fold(sum, |sum, word| sum.wrapping_add(*word).wrapping_add(*word >> 8));
    if let [byte] = end {
        *byte = last[0] as u8;
        sum = sum.wrapping_add(last[0]);
    }
    sum as u8
}

fn header(count: usize, address: usize) -> [u8; 6] {
    let ([c, d], [a, b]) = ((count as u16).to_le_bytes(), (address as u16).to_le_bytes());
    [1, 0, c, d, a, b]
}

/// A data block. Inlined, so that the compiler knows how long a full one is.
#[inline(always)]
fn put_block(words: &[u16], address: usize, block: &mut [u8]) {
    let count = block.len() - 1;
    let header = header(count, address);
    block[..6].copy_from_slice(&header);
    let data = get(words, address, &mut block[6..count]);
    block[count] = sum(&header).wrapping_add(data).wrapping_neg();
}

/// Number, and how many bytes were made.
#[inline(never)]
pub fn save(words: &[u16], start: usize, count: usize, transfer: u16, out: &mut [u8]) -> (u16, usize) {
    let size = size_of(words);
    if size < start || size - start < count {
        return (29, 0);
    }
    let made = file_size(count);
    let Some(file) = out.get_mut(..made) else {
        return (24, 0);
    };
    let (data, end) = file.split_at_mut(made - 7);
    let mut blocks = data.chunks_exact_mut(FULL + 7);
    let mut address = start;
    for block in &mut blocks {
        put_block(words, address, block);
        address += FULL;
    }
    let short = blocks.into_remainder();
    if !short.is_empty() {
        put_block(words, address, short);
    }
    let header = header(6, transfer as usize);
    end[..6].copy_from_slice(&header);
    end[6] = sum(&header).wrapping_neg();
    (0, made)
}
