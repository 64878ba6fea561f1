//! A batch. The requests keep a directory sound, so its fault is asked once.
use crate::enter::enter_sound;
use crate::files::*;
use crate::sound::fault;
use crate::words::{PERMANENT, PROTECTED};
use crate::{refused, Answer, Op, Request};

fn serve_sound(d: &mut [u16], r: &Request) -> Answer {
    match r.op {
        Op::Lookup => lookup_sound(d, r.name),
        Op::Enter => enter_sound(d, r.name, r.size, r.job, r.channel, r.date),
        Op::Close => close_sound(d, r.job, r.channel, r.final_length),
        Op::Abandon => abandon_sound(d, r.job, r.channel),
        Op::Delete => delete_sound(d, r.name),
        Op::Rename => rename_sound(d, r.name, r.new_name),
        Op::Protect => restate_sound(d, r.name, PROTECTED),
        Op::Unprotect => restate_sound(d, r.name, PERMANENT),
    }
}

#[inline(never)]
pub fn run(d: &mut [u16], v: usize, requests: &[Request], answers: &mut [Answer]) -> u16 {
    if requests.len() != answers.len() {
        return 18;
    }
    let number = fault(d, v);
    if number != 0 {
        answers.fill(refused(number));
        return 0;
    }
    for (request, answer) in requests.iter().zip(answers) {
        *answer = serve_sound(d, request);
    }
    0
}

/// The same with the fault asked before each request, as ours does.
#[inline(never)]
pub fn run_each(d: &mut [u16], v: usize, requests: &[Request], answers: &mut [Answer]) -> u16 {
    if requests.len() != answers.len() {
        return 18;
    }
    for (request, answer) in requests.iter().zip(answers) {
        *answer = at_door(d, v, |d| serve_sound(d, request));
    }
    0
}
