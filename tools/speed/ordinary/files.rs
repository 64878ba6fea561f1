//! Lookup, delete, rename, protect and unprotect by a name; close and abandon by a channel. The `_sound` ones presume a sound directory.
use crate::sound::fault;
use crate::words::*;
use crate::{refused, Answer, Name};

/// The place of an entry's first word, its first block, and its segment and slot, both from 1.
pub(crate) struct Place {
    pub(crate) at: usize,
    first: u16,
    segment: u16,
    slot: u16,
}

/// The first entry that passes the test. Blocks are summed in its segment alone.
#[inline(always)]
fn find(d: &[u16], is_it: impl Fn(&[u16; 7]) -> bool) -> Option<Place> {
    let width = width_of(d);
    let mut number = 1;
    while number != 0 {
        let g = segment(d, number);
        for (k, e) in slots(g, width).enumerate() {
            if is_it(e) {
                let before: u16 = slots(g, width).take(k).map(|e| e[4]).sum();
                let at = 512 * (number - 1) + 5 + k * width;
                return Some(Place { at, first: g[4] + before, segment: number as u16, slot: k as u16 + 1 });
            }
            if e[0] == END {
                break;
            }
        }
        number = g[1] as usize;
    }
    None
}

pub(crate) fn find_file(d: &[u16], name: Name) -> Option<Place> {
    let key = four([PERMANENT, name.first, name.second, name.extension]);
    find(d, |e| file_key(e) == key)
}

fn find_open(d: &[u16], word: u16) -> Option<Place> {
    find(d, |e| e[0] == TENTATIVE && e[5] == word)
}

fn answered(d: &[u16], place: Place) -> Answer {
    let Place { at, first, segment, slot } = place;
    Answer { number: 0, first, length: d[at + 4], date: d[at + 6], segment, slot }
}

pub fn lookup_sound(d: &[u16], name: Name) -> Answer {
    if !is_legal_name(name) {
        return refused(7);
    }
    find_file(d, name).map_or(refused(13), |place| answered(d, place))
}

pub fn delete_sound(d: &mut [u16], name: Name) -> Answer {
    if !is_legal_name(name) {
        return refused(7);
    }
    if name == FILE_BAD {
        return refused(19);
    }
    let Some(place) = find_file(d, name) else {
        return refused(13);
    };
    if d[place.at] == PROTECTED {
        return refused(20);
    }
    d[place.at] = EMPTY;
    answered(d, place)
}

/// Protect and unprotect: the file's status becomes this one.
pub fn restate_sound(d: &mut [u16], name: Name, status: u16) -> Answer {
    if !is_legal_name(name) {
        return refused(7);
    }
    if name == FILE_BAD {
        return refused(19);
    }
    let Some(place) = find_file(d, name) else {
        return refused(13);
    };
    d[place.at] = status;
    answered(d, place)
}

pub fn rename_sound(d: &mut [u16], old: Name, new: Name) -> Answer {
    if !is_legal_name(old) || !is_legal_name(new) {
        return refused(7);
    }
    if old == FILE_BAD || new == FILE_BAD {
        return refused(19);
    }
    let Some(place) = find_file(d, old) else {
        return refused(13);
    };
    if d[place.at] == PROTECTED {
        return refused(20);
    }
    if find_file(d, new).is_some() {
        return refused(14);
    }
    d[place.at + 1..place.at + 4].copy_from_slice(&[new.first, new.second, new.extension]);
    answered(d, place)
}

pub fn abandon_sound(d: &mut [u16], job: u16, channel: u16) -> Answer {
    if !is_channel(job, channel) {
        return refused(8);
    }
    let Some(place) = find_open(d, job * 256 + channel) else {
        return refused(15);
    };
    d[place.at] = EMPTY;
    answered(d, place)
}

pub fn close_sound(d: &mut [u16], job: u16, channel: u16, length: i32) -> Answer {
    if !is_channel(job, channel) {
        return refused(8);
    }
    let Some(place) = find_open(d, job * 256 + channel) else {
        return refused(15);
    };
    let at = place.at;
    if length < 0 || length > d[at + 4] as i32 {
        return refused(16);
    }
    let name = Name { first: d[at + 1], second: d[at + 2], extension: d[at + 3] };
    if name != FILE_BAD {
        if let Some(old) = find_file(d, name) {
            if d[old.at] == PROTECTED {
                return refused(20);
            }
            d[old.at] = EMPTY;
        }
    }
    let next = at + width_of(d);
    d[next + 4] += d[at + 4] - length as u16;
    d[at] = PERMANENT;
    d[at + 4] = length as u16;
    d[at + 5] = 0;
    answered(d, place)
}

/// What is asked of a sound directory; of any other its fault is the answer.
#[inline(always)]
pub(crate) fn at_door(d: &mut [u16], v: usize, request: impl FnOnce(&mut [u16]) -> Answer) -> Answer {
    match fault(d, v) {
        0 => request(d),
        number => refused(number),
    }
}

#[inline(never)]
pub fn lookup(d: &[u16], v: usize, name: Name) -> Answer {
    match fault(d, v) {
        0 => lookup_sound(d, name),
        number => refused(number),
    }
}

#[inline(never)]
pub fn delete(d: &mut [u16], v: usize, name: Name) -> Answer {
    at_door(d, v, |d| delete_sound(d, name))
}

#[inline(never)]
pub fn rename(d: &mut [u16], v: usize, old: Name, new: Name) -> Answer {
    at_door(d, v, |d| rename_sound(d, old, new))
}

#[inline(never)]
pub fn protect(d: &mut [u16], v: usize, name: Name) -> Answer {
    at_door(d, v, |d| restate_sound(d, name, PROTECTED))
}

#[inline(never)]
pub fn unprotect(d: &mut [u16], v: usize, name: Name) -> Answer {
    at_door(d, v, |d| restate_sound(d, name, PERMANENT))
}

#[inline(never)]
pub fn abandon(d: &mut [u16], v: usize, job: u16, channel: u16) -> Answer {
    at_door(d, v, |d| abandon_sound(d, job, channel))
}

#[inline(never)]
pub fn close(d: &mut [u16], v: usize, job: u16, channel: u16, length: i32) -> Answer {
    at_door(d, v, |d| close_sound(d, job, channel, length))
}
