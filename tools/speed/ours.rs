//! The proved routines, from the archive that `rt lib` wrote. A slice goes as its pointer and its length. Sixteen bits come back in a
//! register whose upper half may be anything, hence u32 and a cast.
use ordinary::{Answer, Name, Report, Request, ROOM};

extern "C" {
    fn our_fault(d: *const u16, len: usize, v: usize) -> u32;
    fn our_fresh(d: *mut u16, len: usize, v: usize, extra: usize, out: &mut Answer);
    fn our_lookup(d: *const u16, len: usize, v: usize, a: u16, b: u16, c: u16, out: &mut Answer);
    fn our_delete(d: *mut u16, len: usize, v: usize, a: u16, b: u16, c: u16, out: &mut Answer);
    fn our_protect(d: *mut u16, len: usize, v: usize, a: u16, b: u16, c: u16, out: &mut Answer);
    fn our_unprotect(d: *mut u16, len: usize, v: usize, a: u16, b: u16, c: u16, out: &mut Answer);
    fn our_rename(d: *mut u16, len: usize, v: usize, a: u16, b: u16, c: u16, x: u16, y: u16, z: u16, out: &mut Answer);
    fn our_enter(d: *mut u16, len: usize, v: usize, a: u16, b: u16, c: u16, n: i32, job: u16, channel: u16, date: u16, out: &mut Answer);
    fn our_close(d: *mut u16, len: usize, v: usize, job: u16, channel: u16, n: i32, out: &mut Answer);
    fn our_abandon(d: *mut u16, len: usize, v: usize, job: u16, channel: u16, out: &mut Answer);
    fn our_listing(file: *const u8, len: usize, out: *mut u8) -> usize;
    fn our_read_label(block: *const u8, len: usize, name: &mut [u8; 12], owner: &mut [u8; 12]) -> u32;
    fn our_write_label(block: *mut u8, len: usize, name: &[u8; 12], owner: &[u8; 12]) -> u32;
    fn our_load(stream: *const u8, size: usize, words: *mut u16, len: usize, transfer: &mut u16) -> u32;
    fn our_save(words: *const u16, len: usize, start: usize, n: usize, transfer: u16, out: *mut u8, room: usize, made: &mut usize) -> u32;
    fn our_read_pieces(s: *const u8, size: usize, lengths: *const usize, n: usize, ends: bool, d: *mut u16, len: usize, out: &mut [u64; 5]);
    fn our_squeeze(d: *mut u16, len: usize, v: usize, list: *mut u16, room: usize, count: &mut usize) -> u32;
    // Of at most 512 records, which it takes into proved ones and back.
    fn our_batch(d: *mut u16, len: usize, v: usize, asked: *const Request, n: usize, out: *mut Answer, room: usize) -> u32;
}

pub fn fault(d: &[u16], v: usize) -> u16 {
    unsafe { our_fault(d.as_ptr(), d.len(), v) as u16 }
}

fn answer(give: impl FnOnce(&mut Answer)) -> Answer {
    let mut out = Answer::default();
    give(&mut out);
    out
}

pub fn fresh(d: &mut [u16], v: usize, extra: usize) -> Answer {
    answer(|out| unsafe { our_fresh(d.as_mut_ptr(), d.len(), v, extra, out) })
}

pub fn lookup(d: &[u16], v: usize, n: Name) -> Answer {
    answer(|out| unsafe { our_lookup(d.as_ptr(), d.len(), v, n.first, n.second, n.extension, out) })
}

pub fn delete(d: &mut [u16], v: usize, n: Name) -> Answer {
    answer(|out| unsafe { our_delete(d.as_mut_ptr(), d.len(), v, n.first, n.second, n.extension, out) })
}

pub fn protect(d: &mut [u16], v: usize, n: Name) -> Answer {
    answer(|out| unsafe { our_protect(d.as_mut_ptr(), d.len(), v, n.first, n.second, n.extension, out) })
}

pub fn unprotect(d: &mut [u16], v: usize, n: Name) -> Answer {
    answer(|out| unsafe { our_unprotect(d.as_mut_ptr(), d.len(), v, n.first, n.second, n.extension, out) })
}

pub fn rename(d: &mut [u16], v: usize, n: Name, m: Name) -> Answer {
    let (p, len) = (d.as_mut_ptr(), d.len());
    answer(|out| unsafe { our_rename(p, len, v, n.first, n.second, n.extension, m.first, m.second, m.extension, out) })
}

pub fn enter(d: &mut [u16], v: usize, n: Name, size: i32, job: u16, channel: u16, date: u16) -> Answer {
    let (p, len) = (d.as_mut_ptr(), d.len());
    answer(|out| unsafe { our_enter(p, len, v, n.first, n.second, n.extension, size, job, channel, date, out) })
}

pub fn close(d: &mut [u16], v: usize, job: u16, channel: u16, length: i32) -> Answer {
    answer(|out| unsafe { our_close(d.as_mut_ptr(), d.len(), v, job, channel, length, out) })
}

pub fn abandon(d: &mut [u16], v: usize, job: u16, channel: u16) -> Answer {
    answer(|out| unsafe { our_abandon(d.as_mut_ptr(), d.len(), v, job, channel, out) })
}

pub fn listing(file: &[u8], out: &mut [u8; ROOM]) -> usize {
    unsafe { our_listing(file.as_ptr(), file.len(), out.as_mut_ptr()) }
}

/// Number, name and owner.
pub fn read_label(block: &[u8]) -> (u16, [u8; 12], [u8; 12]) {
    let (mut name, mut owner) = ([0; 12], [0; 12]);
    let number = unsafe { our_read_label(block.as_ptr(), block.len(), &mut name, &mut owner) as u16 };
    (number, name, owner)
}

pub fn write_label(block: &mut [u8], name: &[u8; 12], owner: &[u8; 12]) -> u16 {
    unsafe { our_write_label(block.as_mut_ptr(), block.len(), name, owner) as u16 }
}

/// Number and transfer address.
pub fn load(stream: &[u8], words: &mut [u16]) -> (u16, u16) {
    let mut transfer = 0;
    let number = unsafe { our_load(stream.as_ptr(), stream.len(), words.as_mut_ptr(), words.len(), &mut transfer) as u16 };
    (number, transfer)
}

/// Number, and how many bytes were made.
pub fn save(words: &[u16], start: usize, count: usize, transfer: u16, out: &mut [u8]) -> (u16, usize) {
    let mut made = 0;
    let (p, len, room) = (words.as_ptr(), words.len(), out.len());
    let number = unsafe { our_save(p, len, start, count, transfer, out.as_mut_ptr(), room, &mut made) as u16 };
    (number, made)
}

pub fn read_pieces(stream: &[u8], lengths: &[usize], ends: bool, words: &mut [u16]) -> Report {
    let (s, size, l, count) = (stream.as_ptr(), stream.len(), lengths.as_ptr(), lengths.len());
    let mut out = [0; 5];
    unsafe { our_read_pieces(s, size, l, count, ends, words.as_mut_ptr(), words.len(), &mut out) };
    let [state, number, transfer, stored, offset] = out;
    match state {
        0 => Report::Provisional,
        1 => Report::Accepted(transfer as u16),
        _ => Report::Refused(number as u16, stored, offset),
    }
}

/// Number and count of moves.
pub fn squeeze(d: &mut [u16], v: usize, list: &mut [u16]) -> (u16, usize) {
    let mut count = 0;
    let number = unsafe { our_squeeze(d.as_mut_ptr(), d.len(), v, list.as_mut_ptr(), list.len(), &mut count) as u16 };
    (number, count)
}

pub fn run(d: &mut [u16], v: usize, requests: &[Request], answers: &mut [Answer]) -> u16 {
    let (asked, n, room) = (requests.as_ptr(), requests.len(), answers.len());
    unsafe { our_batch(d.as_mut_ptr(), d.len(), v, asked, n, answers.as_mut_ptr(), room) as u16 }
}
