//! Load files to measure on and to hold the two sides to, made from a seed.
use crate::volumes::Random;

pub fn bytes(count: usize, random: &mut Random) -> Vec<u8> {
    (0..count).map(|_| random.below(256) as u8).collect()
}

pub fn words(count: usize, random: &mut Random) -> Vec<u16> {
    (0..count).map(|_| random.below(65536) as u16).collect()
}

fn block(address: usize, data: &[u8]) -> Vec<u8> {
    let mut made: Vec<u8> = [1, 6 + data.len() as u16, address as u16].into_iter().flat_map(u16::to_le_bytes).collect();
    made.extend_from_slice(data);
    made.push(made.iter().fold(0, |rest: u8, byte| rest.wrapping_sub(*byte)));
    made
}

/// Blocks of this many data bytes, one after the other from address 0 on.
pub fn small_blocks(count: usize, data: usize, random: &mut Random) -> Vec<u8> {
    let mut stream: Vec<u8> = (0..count).flat_map(|k| block(k * data, &bytes(data, random))).collect();
    stream.extend(block(random.below(65536), &[]));
    stream
}

/// Blocks of any length at any address, so that some lie over others, with gaps before them; then the end block, and at times bytes
/// behind it. The data lie in a memory of `size` bytes, often at its end.
pub fn any_blocks(size: usize, random: &mut Random) -> Vec<u8> {
    let mut stream = Vec::new();
    let many = if size == 0 { 0 } else { random.below(6) };
    for _ in 0..many {
        let longest = [2, 20, 300, size][random.below(4)].min(size).min(65529);
        let data = bytes(1 + random.below(longest), random);
        let last = size - data.len();
        let address = if random.below(4) == 0 { last } else { random.below(last + 1) };
        stream.resize(stream.len() + random.below(4), 0);
        stream.extend(block(address, &data));
    }
    stream.resize(stream.len() + random.below(4), 0);
    stream.extend(block(random.below(65536), &[]));
    stream.extend(bytes([0, 0, 9][random.below(3)], random));
    stream
}

/// A few bytes changed, cut off, taken out or put in; at times none.
pub fn damage(stream: &mut Vec<u8>, random: &mut Random) {
    for _ in 0..random.below(3) {
        // often near the front, where the first header stands
        let near = [3, 8, stream.len(), stream.len()][random.below(4)].min(stream.len());
        let at = random.below(near + 1);
        match random.below(6) {
            0 => stream.truncate(at),
            1 if at < stream.len() => drop(stream.remove(at)),
            2 => stream.insert(at, random.below(3) as u8),
            3 if at < stream.len() => stream[at] = random.below(8) as u8,
            _ if at < stream.len() => stream[at] ^= 1 << random.below(8),
            _ => {}
        }
    }
}
