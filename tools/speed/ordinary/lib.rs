//! The requests of document 01, and document 02's as far as they are proved, as a good Rust programmer writes them where speed counts and
//! nothing is proved: no heap, no copy of the directory, every change in place. The proved routines are timed beside these.
#![no_std]
#![deny(unsafe_code)]

mod batch;
mod enter;
mod files;
mod label;
mod listing;
mod loads;
mod pieces;
mod sound;
mod squeeze;
mod words;

pub use batch::{run, run_each};
pub use enter::{enter, fresh};
pub use files::{abandon, close, delete, lookup, protect, rename, unprotect};
pub use label::{read_label, write_label};
pub use listing::{listing, ROOM};
pub use loads::{load, save};
pub use pieces::{read_pieces, Report};
pub use sound::fault;
pub use squeeze::squeeze;
pub use words::FILE_BAD;

#[derive(Clone, Copy, Debug, PartialEq, Eq)]
#[repr(C)]
pub struct Name {
    pub first: u16,
    pub second: u16,
    pub extension: u16,
}

#[derive(Clone, Copy, Debug, PartialEq, Eq)]
#[repr(u8)]
pub enum Op {
    Lookup,
    Enter,
    Close,
    Abandon,
    Delete,
    Rename,
    Protect,
    Unprotect,
}

/// In C's layout, which is that of the exported record too, so that one slice serves both sides.
#[derive(Clone, Copy, Debug)]
#[repr(C)]
pub struct Request {
    pub op: Op,
    pub name: Name,
    pub new_name: Name,
    pub job: u16,
    pub channel: u16,
    pub size: i32,
    pub final_length: i32,
    pub date: u16,
}

#[derive(Clone, Copy, Debug, Default, PartialEq, Eq)]
#[repr(C)]
pub struct Answer {
    pub number: u16,
    pub first: u16,
    pub length: u16,
    pub date: u16,
    pub segment: u16,
    pub slot: u16,
}

pub(crate) fn refused(number: u16) -> Answer {
    Answer { number, first: 0, length: 0, date: 0, segment: 0, slot: 0 }
}
