//! Absolute load files a piece at a time. A header that is not cut is read at once, and so are the data that a piece has of a block; other
//! bytes are read one by one.
use crate::loads::{pair, put, size_of, sum};

/// Which byte is due.
#[derive(Clone, Copy)]
enum Due {
    /// Byte 1 of a block, or a zero between blocks.
    Start,
    Zero,
    CountLow,
    /// With the count's low byte.
    CountHigh(u8),
    /// With the count.
    AddressLow(usize),
    /// With the count, and the address's low byte.
    AddressHigh(usize, u8),
    /// Where the next data byte goes, and how many are due, at least one.
    Data(usize, usize),
    Sum,
    /// The checksum of the end block, whose address this is.
    EndSum(u16),
    Accepted(u16),
    Refused(u16),
}

/// What a reader answers: nothing final yet; the transfer address; or the number of the refusal, how many data bytes were stored, and the
/// offset of the byte that showed it.
#[derive(Clone, Copy, Debug, PartialEq, Eq)]
pub enum Report {
    Provisional,
    Accepted(u16),
    Refused(u16, u64, u64),
}

/// With the sum of all bytes so far, and how many were stored and passed.
pub struct Reader {
    due: Due,
    sum: u8,
    stored: u64,
    offset: u64,
}

/// What is due behind a header, of this count; or the number of the refusal.
fn behind_header(size: usize, count: usize, address: usize) -> Result<Due, u16> {
    match count {
        0..6 => Err(28),
        6 => Ok(Due::EndSum(address as u16)),
        _ if size < address + count - 6 => Err(29),
        _ => Ok(Due::Data(address, count - 6)),
    }
}

/// What is due behind a byte that is not stored, where `sum` has it in.
fn behind_byte(due: Due, byte: u8, sum: u8, size: usize) -> Result<Due, u16> {
    match due {
        Due::Start => match byte {
            0 => Ok(Due::Start),
            1 => Ok(Due::Zero),
            _ => Err(27),
        },
        Due::Zero if byte == 0 => Ok(Due::CountLow),
        Due::Zero => Err(27),
        Due::CountLow => Ok(Due::CountHigh(byte)),
        Due::CountHigh(low) if pair(low, byte) < 6 => Err(28),
        Due::CountHigh(low) => Ok(Due::AddressLow(pair(low, byte))),
        Due::AddressLow(count) => Ok(Due::AddressHigh(count, byte)),
        Due::AddressHigh(count, low) => behind_header(size, count, pair(low, byte)),
        // a shorter memory was lent for this piece
        Due::Data(..) => Err(29),
        Due::Sum | Due::EndSum(_) if sum != 0 => Err(31),
        Due::Sum => Ok(Due::Start),
        Due::EndSum(transfer) => Ok(Due::Accepted(transfer)),
        Due::Accepted(_) | Due::Refused(_) => Ok(due),
    }
}

impl Reader {
    pub fn begin() -> Self {
        Reader { due: Due::Start, sum: 0, stored: 0, offset: 0 }
    }

    /// Once the file is decided, the rest of the piece is not looked at.
    pub fn feed(&mut self, piece: &[u8], words: &mut [u16]) {
        let size = size_of(words);
        let (mut rest, mut due, mut total, mut stored) = (piece, self.due, self.sum, 0);
        while let [byte, next @ ..] = rest {
            match (due, rest) {
                (Due::Accepted(_) | Due::Refused(_), _) => break,
                (Due::Data(address, left), _) if address < size => {
                    let (data, next) = rest.split_at(left.min(rest.len()).min(size - address));
                    put(words, address, data);
                    total = total.wrapping_add(sum(data));
                    stored += data.len() as u64;
                    due = if data.len() == left { Due::Sum } else { Due::Data(address + data.len(), left - data.len()) };
                    rest = next;
                    continue;
                }
                (Due::Start, [1, 0, c, d, a, b, next @ ..]) => {
                    // a header that is not cut; of a wrong one, the byte that shows it is found below
                    if let Ok(then) = behind_header(size, pair(*c, *d), pair(*a, *b)) {
                        total = total.wrapping_add(sum(&rest[..6]));
                        due = then;
                        rest = next;
                        continue;
                    }
                }
                _ => {}
            }
            total = total.wrapping_add(*byte);
            match behind_byte(due, *byte, total, size) {
                Ok(then) => due = then,
                Err(number) => {
                    due = Due::Refused(number);
                    break;
                }
            }
            rest = next;
        }
        let passed = (piece.len() - rest.len()) as u64;
        *self = Reader { due, sum: total, stored: self.stored.saturating_add(stored), offset: self.offset.saturating_add(passed) };
    }

    pub fn finish(&mut self) {
        if !matches!(self.due, Due::Accepted(_) | Due::Refused(_)) {
            self.due = Due::Refused(30);
        }
    }

    pub fn report(&self) -> Report {
        match self.due {
            Due::Accepted(transfer) => Report::Accepted(transfer),
            Due::Refused(number) => Report::Refused(number, self.stored, self.offset),
            _ => Report::Provisional,
        }
    }
}

/// A stream in pieces of these lengths, as far as it has bytes for them; then, if it `ends` there, the reader is told so.
#[inline(never)]
pub fn read_pieces(stream: &[u8], lengths: &[usize], ends: bool, words: &mut [u16]) -> Report {
    let mut reader = Reader::begin();
    let mut rest = stream;
    for &length in lengths {
        let (piece, next) = rest.split_at(length.min(rest.len()));
        reader.feed(piece, words);
        rest = next;
    }
    if ends {
        reader.finish();
    }
    reader.report()
}
