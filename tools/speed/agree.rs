//! Before anything is timed: both sides must give the same answers and leave the same words, on random requests on small volumes of all
//! forms, on damaged directories, on directories to squeeze, and on load files, whole and in pieces, damaged ones too.
use crate::ours;
use crate::squeezes;
use crate::streams;
use crate::volumes::{head_file, label_text, labelled_block, Random};
use ordinary::{Answer, Name, Op, Report, Request, FILE_BAD, ROOM};

/// How many requests a volume gets.
const REQUESTS: usize = 500;

/// One request through the door of each side.
fn serve(d: &mut [u16], e: &mut [u16], v: usize, r: &Request) -> (Answer, Answer) {
    match r.op {
        Op::Lookup => (ours::lookup(d, v, r.name), ordinary::lookup(e, v, r.name)),
        Op::Enter => (
            ours::enter(d, v, r.name, r.size, r.job, r.channel, r.date),
            ordinary::enter(e, v, r.name, r.size, r.job, r.channel, r.date),
        ),
        Op::Close => (ours::close(d, v, r.job, r.channel, r.final_length), ordinary::close(e, v, r.job, r.channel, r.final_length)),
        Op::Abandon => (ours::abandon(d, v, r.job, r.channel), ordinary::abandon(e, v, r.job, r.channel)),
        Op::Delete => (ours::delete(d, v, r.name), ordinary::delete(e, v, r.name)),
        Op::Rename => (ours::rename(d, v, r.name, r.new_name), ordinary::rename(e, v, r.name, r.new_name)),
        Op::Protect => (ours::protect(d, v, r.name), ordinary::protect(e, v, r.name)),
        Op::Unprotect => (ours::unprotect(d, v, r.name), ordinary::unprotect(e, v, r.name)),
    }
}

/// A name out of few, so that names meet; seldom an illegal one, and now and then FILE.BAD.
fn few(random: &mut Random) -> Name {
    if random.below(30) == 0 {
        return FILE_BAD;
    }
    let word = |random: &mut Random| if random.below(200) == 0 { random.below(65536) as u16 } else { 1600 * (1 + random.below(12) as u16) };
    Name { first: word(random), second: [0, 1600][random.below(2)], extension: word(random) }
}

fn request(random: &mut Random) -> Request {
    use Op::*;
    // more unprotects than protects, or closes would all be refused in the end
    const OPS: [Op; 16] =
        [Enter, Enter, Enter, Enter, Enter, Close, Close, Close, Close, Abandon, Delete, Rename, Lookup, Protect, Unprotect, Unprotect];
    const CHANNELS: [u16; 17] = [0, 1, 2, 3, 4, 5, 6, 7, 8, 9, 10, 11, 15, 16, 254, 255, 256];
    let size = match random.below(20) {
        0 => [-3, -2, 65535, 65536][random.below(4)],
        1 => -1,
        2 | 3 => 0,
        _ => random.below(8) as i32 + 1,
    };
    Request {
        op: OPS[random.below(OPS.len())],
        name: few(random),
        new_name: few(random),
        job: [0, 2, 2, 0, 0, 0, 1][random.below(7)],
        channel: CHANNELS[random.below(CHANNELS.len())],
        size,
        final_length: random.below(6) as i32 - (random.below(9) == 0) as i32,
        date: [0, 3556, 3556, 3556, 16384, 28150, 62463, 65535, 2 * 1024 + 29 * 32 + 1][random.below(9)],
    }
}

/// Room for both sides' listings, and chance for the labels, which have no part in that of the requests.
struct Listings {
    rooms: [Box<[u8; ROOM]>; 2],
    chance: Random,
}

/// With a label, a bad one or none, and without a block for it; one byte more at times.
fn same_listing(d: &[u16], v: usize, Listings { rooms, chance }: &mut Listings) {
    let block = some_block(chance);
    for home in [None, Some(&block[..])] {
        let mut file = head_file(d, v as u16, home);
        file.extend((chance.below(20) == 0).then_some(0));
        let lengths = (ours::listing(&file, &mut rooms[0]), ordinary::listing(&file, &mut rooms[1]));
        assert_eq!(lengths.0, lengths.1, "the listings differ in length");
        assert!(rooms[0][..] == rooms[1][..], "the listings differ");
    }
}

/// A block with a label; at times with a byte of name, owner or mark changed.
fn some_block(random: &mut Random) -> Vec<u8> {
    let mut block = labelled_block(random);
    if random.below(3) == 0 {
        block[472 + random.below(36)] = random.below(256) as u8;
    }
    block
}

/// Labels read and written, in blocks that may be of another size.
fn same_labels(random: &mut Random) {
    let block = &some_block(random)[(random.below(20) == 0) as usize..];
    let (number, _, name, owner) = ordinary::read_label(block);
    assert_eq!(ours::read_label(block), (number, name, owner), "the labels differ");
    let (mut text, owner) = (label_text(random), label_text(random));
    text[random.below(12)] = random.below(256) as u8;
    let (mut b, mut c) = (block.to_vec(), block.to_vec());
    assert_eq!(ours::write_label(&mut b, &text, &owner), ordinary::write_label(&mut c, &text, &owner), "the writers differ");
    assert!(b == c, "the blocks differ");
}

/// A few words changed, to what may or may not be a fault; or status and name of one slot copied to another.
fn damage(d: &[u16], random: &mut Random) -> Vec<u16> {
    const WORDS: [u16; 14] = [0, 1, 2, 3, 256, 512, 1024, 2048, 33024, 33792, 63999, 64000, 65535, 14];
    let mut e = d.to_vec();
    if random.below(6) == 0 {
        let width = 7 + d[3] as usize / 2;
        let mut slot = || 512 * random.below(d[2] as usize) + 5 + width * random.below(20);
        let (from, to) = (slot(), slot());
        e.copy_within(from..from + 4, to);
        return e;
    }
    for _ in 0..1 + random.below(3) {
        let near = [6, 60, 512, e.len()][random.below(4)];
        let at = (512 * random.below(e.len() / 512) + random.below(near)) % e.len();
        e[at] = match random.below(4) {
            0 => random.below(65536) as u16,
            1 => e[at] ^ 1 << random.below(16),
            2 => e[random.below(d.len())],
            _ => WORDS[random.below(WORDS.len())],
        };
    }
    e
}

fn same_faults(d: &[u16], v: usize, random: &mut Random, listings: &mut Listings, seen: &mut [usize; 7]) {
    let e = damage(d, random);
    let u = if random.below(8) == 0 { random.below(70000) } else { v };
    let part = &e[..e.len() - (random.below(30) == 0) as usize];
    let number = ours::fault(part, u);
    assert_eq!(number, ordinary::fault(part, u), "the faults differ");
    seen[number as usize] += 1;
    same_listing(&e, v, listings);
}

/// The place of an entry of a sound directory that is a file or open, if chance comes upon one.
fn some_file(d: &[u16], random: &mut Random) -> Option<usize> {
    let width = 7 + d[3] as usize / 2;
    let start = 512 * random.below(d[2] as usize) + 5;
    let count = (0..507 / width).position(|k| d[start + k * width] == 2048)?;
    let at = start + width * random.below(count.max(1));
    [256, 1024, 33792].contains(&d[at]).then_some(at)
}

/// A foreign hand makes a file, finished or open, a FILE.BAD, which no request could.
fn made_bad(d: &mut [u16], e: &mut [u16], random: &mut Random) {
    if let Some(at) = some_file(d, random) {
        for words in [d, e] {
            words[at + 1..at + 4].copy_from_slice(&[FILE_BAD.first, FILE_BAD.second, FILE_BAD.extension]);
        }
    }
}

/// One volume, started afresh, and some hundred requests. Answers its segments in use.
fn same_volume(random: &mut Random, listings: &mut Listings, seen: &mut [usize; 21], faults: &mut [usize; 7]) -> u16 {
    let (n, extra) = (1 + random.below(5), [0, 0, 1, 10, 16][random.below(5)]);
    let span = [20, 200, 3000][random.below(3)];
    let v = 6 + 2 * n + random.below(span);
    let (mut d, mut e) = (vec![7; 512 * n], vec![7; 512 * n]);
    assert_eq!(ours::fresh(&mut d, v, extra), ordinary::fresh(&mut e, v, extra), "the fresh starts differ");
    assert_eq!(d, e);
    for _ in 0..REQUESTS {
        let r = request(random);
        let (x, y) = serve(&mut d, &mut e, v, &r);
        assert_eq!(x, y, "the answers differ, of {r:?}");
        assert!(d == e, "the words differ after {r:?}");
        seen[x.number as usize] += 1;
        if random.below(20) == 0 {
            made_bad(&mut d, &mut e, random);
        }
        if random.below(8) == 0 {
            same_faults(&d, v, random, listings, faults);
        }
    }
    same_listing(&d, v, listings);
    (0..40).for_each(|_| same_labels(&mut listings.chance));
    same_batch(&mut d, v, random);
    d[2]
}

fn same_batch(d: &mut [u16], v: usize, random: &mut Random) {
    let requests: Vec<Request> = (0..random.below(40)).map(|_| request(random)).collect();
    let room = vec![Answer { number: 99, ..Answer::default() }; requests.len() + (random.below(9) == 0) as usize];
    let (mut e, mut f) = (d.to_vec(), d.to_vec());
    let (mut x, mut y, mut z) = (room.clone(), room.clone(), room);
    let number = ours::run(d, v, &requests, &mut x);
    assert_eq!(number, ordinary::run(&mut e, v, &requests, &mut y), "the batches differ");
    assert_eq!(number, ordinary::run_each(&mut f, v, &requests, &mut z), "the batches differ");
    assert!(x == y && d == e && x == z && d == f, "the batches differ in answers or words");
}

/// A memory that is small, so that addresses meet its end; seldom one of about 65,536 bytes, some with words that no load file can reach.
fn some_memory(random: &mut Random) -> Vec<u16> {
    let count = if random.below(50) == 0 { 32766 + random.below(5) } else { random.below(400) };
    streams::words(count, random)
}

/// A load file read, which may be damaged, or pass the memory's end by a byte.
fn same_load(random: &mut Random) -> u16 {
    let mut d = some_memory(random);
    let mut e = d.clone();
    let size = (2 * d.len()).min(65536) + (random.below(8) == 0) as usize;
    let mut stream = streams::any_blocks(size, random);
    streams::damage(&mut stream, random);
    let (x, y) = (ours::load(&stream, &mut d), ordinary::load(&stream, &mut e));
    assert_eq!(x, y, "the readers differ");
    assert!(d == e, "the memories differ");
    x.0
}

/// A load file written, of a range that may pass the memory's end by some bytes or by all, in room that may be a byte short.
fn same_save(random: &mut Random) -> u16 {
    let words = some_memory(random);
    let size = (2 * words.len()).min(65536);
    let start = random.below(size + 3);
    let count = match random.below(20) {
        0 => usize::MAX - random.below(size + 3),
        1..=4 => (size + random.below(3)).saturating_sub(start + 1),
        _ => random.below(size.saturating_sub(start) + 2),
    };
    let transfer = random.below(65536) as u16;
    let need = count.min(65536) + 7 * count.min(65536).div_ceil(128) + 7;
    let mut b = streams::bytes((need + random.below(4)).saturating_sub(1), random);
    let mut c = b.clone();
    let (x, y) = (ours::save(&words, start, count, transfer, &mut b), ordinary::save(&words, start, count, transfer, &mut c));
    assert_eq!(x, y, "the writers of load files differ");
    assert!(b == c, "the load files differ");
    x.0
}

/// Load files read and written. Their chance has no part in that of the requests.
fn same_loads(cases: usize) {
    let mut random = Random(10);
    let (mut read, mut wrote) = ([0; 32], [0; 32]);
    for _ in 0..cases {
        read[same_load(&mut random) as usize] += 1;
        wrote[same_save(&mut random) as usize] += 1;
    }
    println!(
        "The same memories and files: {cases} load files read, {} of them refused, and {cases} written, {} refused.",
        cases - read[0],
        cases - wrote[0]
    );
    assert!([0, 27, 28, 29, 30, 31].iter().all(|&k| read[k] > 0), "a number was never answered: {read:?}");
    assert!([0, 24, 29].iter().all(|&k| wrote[k] > 0), "a number was never answered: {wrote:?}");
}

/// How long the pieces of a stream are: all of one length, or each of any, none among them. At times there are too few.
fn some_lengths(size: usize, random: &mut Random) -> Vec<usize> {
    let any = random.below(2) == 0;
    let longest = [1, 2, 7, 20, 512, size][random.below(6)];
    let mut lengths = Vec::new();
    let mut sum = 0;
    while sum < size && random.below(2000) > 0 {
        lengths.push(if any { random.below(longest + 1) } else { longest });
        sum += lengths[lengths.len() - 1];
    }
    lengths
}

/// A load file read in pieces, which may be damaged, or pass the memory's end by a byte. At times the reader is not told that it has ended.
/// Where it is, and the pieces have all of it, number and transfer address must be those of the reader of whole files.
fn same_pieces(random: &mut Random) -> Report {
    let mut d = some_memory(random);
    let (mut e, mut f) = (d.clone(), d.clone());
    let size = (2 * d.len()).min(65536) + (random.below(8) == 0) as usize;
    let mut stream = streams::any_blocks(size, random);
    streams::damage(&mut stream, random);
    let lengths = some_lengths(stream.len(), random);
    let ends = random.below(4) > 0;
    let (x, y) = (ours::read_pieces(&stream, &lengths, ends, &mut d), ordinary::read_pieces(&stream, &lengths, ends, &mut e));
    assert_eq!(x, y, "the readers of pieces differ");
    assert!(d == e, "the memories differ");
    if ends && stream.len() <= lengths.iter().sum() {
        let (number, transfer) = ordinary::load(&stream, &mut f);
        match x {
            Report::Accepted(address) => assert!((number, transfer) == (0, address) && d == f, "pieces and the whole differ"),
            Report::Refused(k, _, _) => assert_eq!(number, k, "pieces and the whole differ"),
            Report::Provisional => panic!("no answer, though the input has ended"),
        }
    }
    x
}

/// Load files in pieces, whose chance has no part in that of others.
fn same_cut(cases: usize) {
    let mut random = Random(11);
    let (mut refused, mut accepted, mut provisional) = ([0; 32], 0, 0);
    for _ in 0..cases {
        match same_pieces(&mut random) {
            Report::Provisional => provisional += 1,
            Report::Accepted(_) => accepted += 1,
            Report::Refused(number, _, _) => refused[number as usize] += 1,
        }
    }
    println!("The same answers and memories: {cases} load files in pieces, {accepted} accepted, {provisional} not decided.");
    assert!(accepted > 0 && provisional > 0, "an answer was never given");
    assert!([27, 28, 29, 30, 31].iter().all(|&k| refused[k] > 0), "a number was never answered: {refused:?}");
}

/// Room for the moves of a squeeze: a word short for them at times, or some too many, or any room.
fn some_room(d: &[u16], v: usize, random: &mut Random) -> Vec<u16> {
    let (_, count) = ordinary::squeeze(&mut d.to_vec(), v, &mut [0; 7000]);
    let near = (3 * count + random.below(4)).saturating_sub(1);
    streams::words([near, near, 7000, random.below(7000)][random.below(4)], random)
}

/// A squeeze on a directory that may be damaged, and after it another, which finds nothing to move.
fn same_squeeze(random: &mut Random) -> (u16, usize) {
    let mut volume = squeezes::any_volume(random);
    if random.below(4) == 0 {
        volume.words = damage(&volume.words, random);
        volume.words.truncate(volume.words.len() - (random.below(30) == 0) as usize);
    }
    let (mut d, v) = (volume.words, volume.v + (random.below(30) == 0) as usize);
    let mut list = some_room(&d, v, random);
    let (mut e, mut room) = (d.clone(), list.clone());
    let answer = ours::squeeze(&mut d, v, &mut list);
    assert_eq!(answer, ordinary::squeeze(&mut e, v, &mut room), "the squeezes differ");
    assert!(d == e, "the squeezed words differ");
    assert!(list == room, "the moves differ");
    if answer.0 == 0 {
        assert_eq!(ours::squeeze(&mut d, v, &mut list), (0, 0), "a second squeeze moves");
        assert!(d == e && list == room, "a second squeeze changes words");
    }
    answer
}

/// Squeezes, whose chance has no part in that of others.
fn same_squeezes(cases: usize) {
    let mut random = Random(5);
    let (mut seen, mut moves) = ([0; 27], 0);
    for _ in 0..cases {
        let (number, count) = same_squeeze(&mut random);
        seen[number as usize] += 1;
        moves += count;
    }
    println!("The same words and moves: {cases} directories squeezed, {} of them refused, {moves} moves.", cases - seen[0]);
    assert!([0, 1, 2, 3, 4, 5, 6, 21, 24, 26].iter().all(|&k| seen[k] > 0), "a number was never answered: {seen:?}");
}

/// Panics where the two sides differ. Says how often each number was answered.
pub fn agree(volumes: usize) {
    let mut random = Random(1976);
    let rooms = [Box::new([b'#'; ROOM]), Box::new([b'#'; ROOM])];
    let mut listings = Listings { rooms, chance: Random(1) };
    let (mut seen, mut faults, mut splits) = ([0; 21], [0; 7], 0);
    for _ in 0..volumes {
        splits += same_volume(&mut random, &mut listings, &mut seen, &mut faults) as usize - 1;
    }
    let damaged: usize = faults.iter().sum();
    println!(
        "The same answers and words: {} random requests, {splits} splits, {damaged} damaged directories, {} labels.",
        REQUESTS * volumes,
        40 * volumes
    );
    assert!(faults[1..].iter().all(|&k| k > 0), "a fault was never met: {faults:?}");
    assert!([0, 7, 8, 9, 10, 11, 12, 13, 14, 15, 16, 19, 20].iter().all(|&k| seen[k] > 0), "a number was never answered: {seen:?}");
    same_squeezes(20_000);
    same_loads(20_000);
    same_cut(20_000);
}
