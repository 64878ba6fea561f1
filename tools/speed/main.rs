//! Times the proved routines beside the ordinary ones, case by case, and prints a line for each. Of each case the two sides take turns on a
//! ring of different volumes, and the least times count. After each turn answers and words are held to be the same.
mod agree;
#[allow(dead_code)]
mod bucket {
    include!(env!("BUCKET"));
}
mod ours;
mod squeezes;
mod streams;
mod volumes;

use ordinary::{Answer, Name, Request, ROOM};
use std::time::{Duration, Instant};
use volumes::{Names, Random, Volume};

const SIZES: [usize; 4] = [1, 8, 16, 31];
const KINDS: [(Names, &str); 3] = [(Names::Sorted, "sorted"), (Names::Shuffled, "shuffled"), (Names::OneBucket, "one bucket")];

/// How long a case is measured.
const SPAN: Duration = Duration::from_millis(900);

/// Linux's clocks: the wall's, and this thread's processor time.
const WALL: i32 = 1;
const OWN: i32 = 3;

/// Microseconds.
fn now(clock: i32) -> f64 {
    extern "C" {
        fn clock_gettime(clock: i32, time: &mut [i64; 2]) -> i32;
    }
    let mut time = [0; 2];
    let failed = unsafe { clock_gettime(clock, &mut time) };
    assert!(failed == 0);
    time[0] as f64 * 1e6 + time[1] as f64 * 1e-3
}

/// One turn of one side: a call on each item of the ring, in a copy that was made before the clock ran.
fn turn<T: Clone, A>(ring: &[T], work: &mut [T], answers: &mut Vec<A>, clock: i32, side: &impl Fn(&mut T, usize) -> A) -> f64 {
    work.clone_from_slice(ring);
    answers.clear();
    let start = now(clock);
    for (k, item) in work.iter_mut().enumerate() {
        answers.push(side(item, k));
    }
    now(clock) - start
}

/// The line of a case.
fn row(case: &str, ours: f64, ordinary: f64) {
    println!("| {case} | {ours:.2} | {ordinary:.2} | {:.2} |", ours / ordinary);
}

/// Both sides in turn, until the time is over; then the line of the case, and its times as the answer. A turn of milliseconds is never left
/// alone on a busy machine, so there the thread's own time is taken.
fn compare<T: Clone + PartialEq, A: PartialEq>(
    case: &str,
    ring: &[T],
    ours: impl Fn(&mut T, usize) -> A,
    ordinary: impl Fn(&mut T, usize) -> A,
) -> (f64, f64) {
    let (mut d, mut e) = (ring.to_vec(), ring.to_vec());
    let (mut x, mut y) = (Vec::with_capacity(ring.len()), Vec::with_capacity(ring.len()));
    let long = turn(ring, &mut d, &mut x, WALL, &ours) > 2000.0;
    let clock = if long { OWN } else { WALL };
    let (mut a, mut b) = (f64::MAX, f64::MAX);
    let start = Instant::now();
    let mut rounds = 0;
    while rounds < 10 || start.elapsed() < SPAN {
        a = a.min(turn(ring, &mut d, &mut x, clock, &ours));
        b = b.min(turn(ring, &mut e, &mut y, clock, &ordinary));
        assert!(x == y, "{case}: the answers differ");
        assert!(d == e, "{case}: the words differ");
        rounds += 1;
    }
    let calls = ring.len() as f64;
    row(case, a / calls, b / calls);
    (a / calls, b / calls)
}

/// How many volumes are taken in turn: with some 18,000 entries in all, no branch predictor remembers them.
fn ring_of(segments: usize) -> usize {
    256 / segments
}

fn words(ring: &[Volume]) -> Vec<Vec<u16>> {
    ring.iter().map(|volume| volume.words.clone()).collect()
}

/// A name that no volume has.
const NEW: Name = Name { first: 1600, second: 0, extension: 0 };

/// Fault and lookup on full volumes, and an enter into an area in the last segment.
fn time_full(kind: Names, called: &str, segments: usize, random: &mut Random) {
    let lists: Vec<Vec<Name>> = (0..ring_of(segments)).map(|_| volumes::names(kind, 71 * segments, random)).collect();
    let asked: Vec<Name> = lists.iter().map(|names| names[random.below(names.len())]).collect();
    let ring: Vec<Volume> = lists.iter().map(|names| volumes::full(segments, names, false)).collect();
    let (w, v) = (words(&ring), |k: usize| ring[k].v);
    let case = |what: &str| format!("{what}, {segments} full, {called}");
    compare(&case("fault"), &w, |d, k| ours::fault(d, v(k)), |d, k| ordinary::fault(d, v(k)));
    compare(&case("lookup"), &w, |d, k| ours::lookup(d, v(k), asked[k]), |d, k| ordinary::lookup(d, v(k), asked[k]));
    let ring: Vec<Volume> = lists.iter().map(|names| volumes::full(segments, names, true)).collect();
    time_enter(&case("enter"), &ring, 10);
}

fn time_enter(case: &str, ring: &[Volume], size: i32) {
    compare(
        case,
        &words(ring),
        |d, k| ours::enter(d, ring[k].v, NEW, size, 0, 3, 3556),
        |d, k| ordinary::enter(d, ring[k].v, NEW, size, 0, 3, 3556),
    );
}

/// The other requests, on 31 segments with shuffled names, and enters that have more to do.
fn time_others(random: &mut Random) {
    let lists: Vec<Vec<Name>> = (0..8).map(|_| volumes::names(Names::Shuffled, 2201, random)).collect();
    let asked: Vec<Name> = lists.iter().map(|names| names[random.below(2100)]).collect();
    let mut ring: Vec<Volume> = lists.iter().map(|names| volumes::full(31, names, true)).collect();
    let w = words(&ring);
    compare("delete, 31 full, shuffled", &w, |d, k| ours::delete(d, ring[k].v, asked[k]), |d, k| ordinary::delete(d, ring[k].v, asked[k]));
    compare(
        "rename, 31 full, shuffled",
        &w,
        |d, k| ours::rename(d, ring[k].v, asked[k], NEW),
        |d, k| ordinary::rename(d, ring[k].v, asked[k], NEW),
    );
    for (volume, name) in ring.iter_mut().zip(&asked) {
        ordinary::enter(&mut volume.words, volume.v, *name, 10, 0, 3, 3556);
    }
    let (w, v) = (words(&ring), |k: usize| ring[k].v);
    compare("close, 31 full, shuffled", &w, |d, k| ours::close(d, v(k), 0, 3, 4), |d, k| ordinary::close(d, v(k), 0, 3, 4));
    let ring: Vec<Volume> = lists.iter().map(|names| volumes::splitting(15, names)).collect();
    time_enter("enter with a split, 15 full of 30, shuffled", &ring, 10);
    let ring: Vec<Volume> = lists.iter().map(|names| volumes::working(&names[..2000], random)).collect();
    time_enter("enter of the longest, 2,000 files with areas", &ring, -1);
}

fn time_fresh(segments: usize) {
    let made = |k: usize| {
        let mut volume = Volume { words: vec![0; 512 * segments], v: 6 + 2 * segments + 100 + k };
        ordinary::fresh(&mut volume.words, volume.v, 0);
        volume
    };
    let ring: Vec<Volume> = (0..1024 / segments).map(made).collect();
    time_enter(&format!("enter, fresh, N = {segments}"), &ring, 10);
}

/// A batch of 500 requests on 2,000 files. Ours asks for the fault once, as the batch does; the ordinary one is timed in both ways.
fn time_batch(random: &mut Random) {
    let made = |_| {
        let names = volumes::names(Names::Shuffled, 2000, random);
        let volume = volumes::working(&names, random);
        let batch = volumes::batch(&volume, &names, 500, random);
        (volume, batch)
    };
    let ring: Vec<(Volume, Vec<Request>)> = (0..2).map(made).collect();
    let lent: Vec<(Vec<u16>, Vec<Answer>)> = ring.iter().map(|(volume, _)| (volume.words.clone(), vec![Answer::default(); 500])).collect();
    let ours = |(d, room): &mut (Vec<u16>, Vec<Answer>), k: usize| ours::run(d, ring[k].0.v, &ring[k].1, room);
    compare("batch of 500, 2,000 files; ordinary: fault once", &lent, ours, |(d, room), k| {
        ordinary::run(d, ring[k].0.v, &ring[k].1, room)
    });
    compare("batch of 500, 2,000 files; ordinary: fault each time", &lent, ours, |(d, room), k| {
        ordinary::run_each(d, ring[k].0.v, &ring[k].1, room)
    });
}

/// A squeeze, the fault alone, and what is left of the squeeze without it.
fn time_squeeze(case: &str, lent: &[(Vec<u16>, Vec<u16>)], v: impl Fn(usize) -> usize) {
    let fault = compare(&format!("fault, {case}"), lent, |(d, _), k| ours::fault(d, v(k)), |(d, _), k| ordinary::fault(d, v(k)));
    let whole = compare(
        &format!("squeeze, {case}"),
        lent,
        |(d, list), k| ours::squeeze(d, v(k), list),
        |(d, list), k| ordinary::squeeze(d, v(k), list),
    );
    row(&format!("squeeze without the fault, {case}"), whole.0 - fault.0, whole.1 - fault.1);
}

/// Squeezes where nearly all of 2,000 files move, and of the same directories once they are squeezed.
fn time_squeezes(random: &mut Random) {
    let made = |_| volumes::working(&volumes::names(Names::Shuffled, 2000, random), random);
    let ring: Vec<Volume> = (0..8).map(made).collect();
    let mut lent: Vec<(Vec<u16>, Vec<u16>)> = ring.iter().map(|volume| (volume.words.clone(), vec![0; 6000])).collect();
    time_squeeze("2,000 files with areas", &lent, |k| ring[k].v);
    let squeezed = |((d, list), volume): (&mut (Vec<u16>, Vec<u16>), &Volume)| ordinary::squeeze(d, volume.v, list).1;
    let moves: usize = lent.iter_mut().zip(&ring).map(squeezed).sum();
    assert!(moves > 1900 * ring.len(), "too few files move");
    time_squeeze("2,000 files once squeezed", &lent, |k| ring[k].v);
}

fn time_listing(labelled: bool, random: &mut Random) {
    let made = |_| {
        let volume = volumes::full(31, &volumes::names(Names::Shuffled, 2201, random), false);
        let block = labelled.then(|| volumes::labelled_block(random));
        volumes::head_file(&volume.words, volume.v as u16, block.as_deref())
    };
    let files: Vec<Vec<u8>> = (0..4).map(made).collect();
    let rooms = vec![Box::new([b'#'; ROOM]); 4];
    let case = if labelled { "listing, 31 full, with a label" } else { "listing, 31 full" };
    compare(case, &rooms, |out, k| ours::listing(&files[k], out), |out, k| ordinary::listing(&files[k], out));
}

fn time_label(random: &mut Random) {
    let blocks: Vec<Vec<u8>> = (0..64).map(|_| volumes::labelled_block(random)).collect();
    let texts: Vec<[[u8; 12]; 2]> = (0..64).map(|_| [volumes::label_text(random), volumes::label_text(random)]).collect();
    let plainly = |block: &mut Vec<u8>, _: usize| {
        let (number, _, name, owner) = ordinary::read_label(block);
        (number, name, owner)
    };
    compare("label read", &blocks, |block, _| ours::read_label(block), plainly);
    let ours = |block: &mut Vec<u8>, k: usize| ours::write_label(block, &texts[k][0], &texts[k][1]);
    compare("label written", &blocks, ours, |block, k| ordinary::write_label(block, &texts[k][0], &texts[k][1]));
}

/// A full memory saved and loaded, and as much as half of it in small blocks.
fn time_loads(random: &mut Random) {
    let memories: Vec<Vec<u16>> = (0..4).map(|_| streams::words(32768, random)).collect();
    let full = |words: &Vec<u16>| {
        let mut out = vec![0; 69127];
        assert_eq!(ordinary::save(words, 0, 65536, 512, &mut out), (0, 69127));
        out
    };
    let files: Vec<Vec<u8>> = memories.iter().map(full).collect();
    let other: Vec<Vec<u16>> = (0..4).map(|_| streams::words(32768, random)).collect();
    compare("load file read, full memory", &other, |d, k| ours::load(&files[k], d), |d, k| ordinary::load(&files[k], d));
    let small: Vec<Vec<u8>> = (0..4).map(|_| streams::small_blocks(4096, 8, random)).collect();
    compare("load file read, 4,096 blocks of 8 bytes", &other, |d, k| ours::load(&small[k], d), |d, k| ordinary::load(&small[k], d));
    let rooms = vec![vec![b'#'; 69127]; 4];
    let ours = |out: &mut Vec<u8>, k: usize| ours::save(&memories[k], 0, 65536, 512, out);
    compare("load file written, full memory", &rooms, ours, |out, k| ordinary::save(&memories[k], 0, 65536, 512, out));
}

/// Load files in pieces: a full memory in large blocks, in those of 128 bytes that the writer makes, and half of one in small blocks.
fn time_pieces(random: &mut Random) {
    const BLOCKS: [(usize, usize, &str); 3] =
        [(2, 32768, "2 blocks of 32,768"), (512, 128, "512 blocks of 128"), (4096, 8, "4,096 blocks of 8")];
    let other: Vec<Vec<u16>> = (0..4).map(|_| streams::words(32768, random)).collect();
    for (length, pieces) in [(512, "512 bytes at a time"), (1, "a byte at a time")] {
        for (count, data, blocks) in BLOCKS {
            let files: Vec<Vec<u8>> = (0..4).map(|_| streams::small_blocks(count, data, random)).collect();
            let lengths = vec![length; files[0].len().div_ceil(length)];
            compare(
                &format!("load file read {pieces}, {blocks} bytes"),
                &other,
                |d, k| ours::read_pieces(&files[k], &lengths, true, d),
                |d, k| ordinary::read_pieces(&files[k], &lengths, true, d),
            );
        }
    }
}

fn main() {
    let start = Instant::now();
    let mut random = Random(1976);
    agree::agree(300);
    if std::env::args().nth(1).as_deref() == Some("agree") {
        return;
    }
    println!("\n| case | ours | ordinary | ratio |\n|---|---|---|---|");
    for (kind, called) in KINDS {
        for segments in SIZES {
            time_full(kind, called, segments, &mut random);
        }
    }
    [1, 4, 31].into_iter().for_each(time_fresh);
    time_others(&mut random);
    time_batch(&mut random);
    [false, true].into_iter().for_each(|labelled| time_listing(labelled, &mut random));
    time_label(&mut random);
    time_loads(&mut random);
    time_pieces(&mut random);
    time_squeezes(&mut random);
    println!("\nMicroseconds for one call; {} s in all.", start.elapsed().as_secs());
}
