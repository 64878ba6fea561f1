//! The listing, straight into the lent bytes. A row has 36 of them, whatever it shows.
use crate::label::read_label;
use crate::sound::fault;
use crate::words::*;

pub const ROOM: usize = 79351;

/// A text that grows.
struct Text<'a> {
    out: &'a mut [u8],
    at: usize,
}

impl Text<'_> {
    fn put(&mut self, bytes: &[u8]) {
        self.out[self.at..self.at + bytes.len()].copy_from_slice(bytes);
        self.at += bytes.len();
    }

    fn number(&mut self, caption: &[u8], n: u16) {
        let mut digits = [0; 6];
        right(&mut digits, n);
        self.put(caption);
        self.put(digits.trim_ascii_start());
    }
}

const CHARS: &[u8; 40] = b" ABCDEFGHIJKLMNOPQRSTUVWXYZ$.?0123456789";

/// Two characters at a time: all pairs of Radix-50, and of digits.
const PAIRS: [[u8; 2]; 1600] = pairs(CHARS, 40);
const TENS: [[u8; 2]; 100] = pairs(b"0123456789", 10);

const fn pairs<const N: usize>(chars: &[u8], base: usize) -> [[u8; 2]; N] {
    let mut all = [[0; 2]; N];
    let mut k = 0;
    while k < N {
        all[k] = [chars[k / base], chars[k % base]];
        k += 1;
    }
    all
}

fn tens(n: u16) -> [u8; 2] {
    TENS[n as usize % 100]
}

/// A number at the right end of six spaces.
fn right(out: &mut [u8; 6], n: u16) {
    *out = *b"      ";
    if n >= 1000 {
        out[2..4].copy_from_slice(&tens(n / 100));
        out[4..6].copy_from_slice(&tens(n));
        if n >= 10000 {
            out[1] = b'0' + (n / 10000) as u8;
        }
    } else if n >= 10 {
        out[4..6].copy_from_slice(&tens(n));
        if n >= 100 {
            out[3] = b'0' + (n / 100) as u8;
        }
    } else {
        out[5] = b'0' + n as u8;
    }
}

fn spell(out: &mut [u8; 3], word: u16) {
    out[0] = CHARS[word as usize / 1600 % 40];
    out[1..3].copy_from_slice(&PAIRS[word as usize % 1600]);
}

fn date(out: &mut [u8; 10], word: u16) {
    let Some((day, month, year)) = day_of(word) else {
        *out = *b"----------";
        return;
    };
    *out = *b"  -  -    ";
    out[0..2].copy_from_slice(&tens(day));
    out[3..5].copy_from_slice(&tens(month));
    out[6..8].copy_from_slice(if year < 2000 { b"19" } else { b"20" });
    out[8..10].copy_from_slice(&tens(year));
}

/// A part of a row at a place that is known.
fn part<const N: usize>(out: &mut [u8; 36], at: usize) -> &mut [u8; N] {
    out[at..].first_chunk_mut().unwrap()
}

fn row(out: &mut [u8; 36], e: &[u16; 7], first: u16) {
    *part(out, 0) = *b"E ..........";
    if e[0] != EMPTY {
        out[0] = if e[0] == TENTATIVE { b'T' } else { b'P' };
        spell(part(out, 2), e[1]);
        spell(part(out, 5), e[2]);
        spell(part(out, 9), e[3]);
    }
    right(part(out, 12), first);
    right(part(out, 18), e[4]);
    out[24] = b' ';
    date(part(out, 25), if e[0] == EMPTY { 0 } else { e[6] });
    out[35] = b'\n';
}

/// All rows; answers the blocks of permanent, tentative and empty entries.
fn rows(text: &mut Text, d: &[u16]) -> [u16; 3] {
    let width = width_of(d);
    let mut totals = [0; 3];
    let mut number = 1;
    while number != 0 {
        let g = segment(d, number);
        let mut block = g[4];
        for e in slots(g, width).take_while(|e| e[0] != END) {
            row(text.out[text.at..].first_chunk_mut().unwrap(), e, block);
            text.at += 36;
            block = block.wrapping_add(e[4]);
            totals[(e[0] == TENTATIVE) as usize + 2 * (e[0] == EMPTY) as usize] += e[4];
        }
        number = g[1] as usize;
    }
    totals
}

#[inline(never)]
pub fn listing(file: &[u8], out: &mut [u8; ROOM]) -> usize {
    let mut text = Text { out, at: 0 };
    let number = match file {
        [b'R', b'V', b'H', 1, 0, low, high, rest @ ..] => list_bytes(&mut text, None, rest, u16::from_le_bytes([*low, *high])),
        [b'R', b'V', b'H', 2, 0, low, high, rest @ ..] if rest.len() >= 512 => {
            let (block, rest) = rest.split_at(512);
            list_bytes(&mut text, Some(block), rest, u16::from_le_bytes([*low, *high]))
        }
        _ => 17,
    };
    if number != 0 {
        text.number(b"REFUSED ", number);
        text.put(b"\n");
    }
    text.at
}

/// The listing of a directory's bytes, behind the line of a label where there is a block for it; or the number of a refusal.
fn list_bytes(text: &mut Text, block: Option<&[u8]>, bytes: &[u8], v: u16) -> u16 {
    if bytes.len() % 2 != 0 || bytes.len() > 31744 {
        return 17;
    }
    let label = block.map(read_label);
    if let Some((25, ..)) = label {
        return 25;
    }
    let mut words = [0; 15872];
    let d = &mut words[..bytes.len() / 2];
    for (word, pair) in d.iter_mut().zip(bytes.chunks_exact(2)) {
        *word = u16::from_le_bytes([pair[0], pair[1]]);
    }
    let number = fault(d, v as usize);
    if number == 0 {
        match label {
            Some((_, true, name, owner)) => [b"LABEL ", &name[..], b" ", &owner, b"\n"].iter().for_each(|part| text.put(part)),
            Some(_) => text.put(b"UNLABELLED\n"),
            None => {}
        }
        list_words(text, d, v);
    }
    number
}

/// The listing of a sound directory.
fn list_words(text: &mut Text, d: &[u16], v: u16) {
    text.number(b"VOLUME ", v);
    text.number(b" SEGMENTS ", d[2]);
    text.number(b" OF ", d[0]);
    text.number(b" EXTRA ", d[3]);
    text.put(b"\n");
    let [files, opened, free] = rows(text, d);
    text.number(b"FILES ", files);
    text.number(b" OPEN ", opened);
    text.number(b" FREE ", free);
    text.put(b"\n");
}
