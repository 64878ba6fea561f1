//! Names, volumes and batches to measure on, made from a seed.
use ordinary::{Answer, Name, Op, Request};

pub struct Random(pub u64);

impl Random {
    pub fn below(&mut self, n: usize) -> usize {
        self.0 = self.0.wrapping_add(0x9e37_79b9_7f4a_7c15);
        let mut z = self.0;
        z = (z ^ z >> 30).wrapping_mul(0xbf58_476d_1ce4_e5b9);
        z = (z ^ z >> 27).wrapping_mul(0x94d0_49bb_1331_11eb);
        ((z ^ z >> 31) % n as u64) as usize
    }

    pub fn shuffle<T>(&mut self, items: &mut [T]) {
        for i in (1..items.len()).rev() {
            items.swap(i, self.below(i + 1));
        }
    }

    /// A letter or a digit.
    fn code(&mut self) -> u16 {
        let k = self.below(36) as u16;
        if k < 26 {
            k + 1
        } else {
            k + 4
        }
    }

    fn word(&mut self) -> u16 {
        self.code() * 1600 + self.code() * 40 + self.code()
    }

    /// A name of six characters and three.
    pub fn name(&mut self) -> Name {
        Name { first: self.word(), second: self.word(), extension: self.word() }
    }
}

#[derive(Clone, Copy, PartialEq)]
pub enum Names {
    Sorted,
    Shuffled,
    OneBucket,
}

/// F, four digits, and the extension DAT.
pub fn numbered(k: usize) -> Name {
    let digit = |n: usize| (30 + k / n % 10) as u16;
    Name { first: 6 * 1600 + digit(1000) * 40 + digit(100), second: digit(10) * 1600 + digit(1) * 40, extension: 6460 }
}

fn bucket_of(n: Name) -> usize {
    crate::bucket::hash(n.first, n.second, n.extension)
}

/// Different names, in this order; those of one bucket all fall into one of our hash.
pub fn names(kind: Names, count: usize, random: &mut Random) -> Vec<Name> {
    let start = random.below(7000);
    let mut list: Vec<Name> = (start..start + count).map(numbered).collect();
    if kind == Names::Shuffled {
        random.shuffle(&mut list);
    }
    if kind == Names::OneBucket {
        let bucket = bucket_of(random.name());
        let mut met = std::collections::HashSet::new();
        list.clear();
        while list.len() < count {
            let n = random.name();
            if bucket_of(n) == bucket && met.insert((n.first, n.second, n.extension)) {
                list.push(n);
            }
        }
    }
    list
}

pub struct Volume {
    pub words: Vec<u16>,
    pub v: usize,
}

/// Entries as status, name and length, dealt out to the segments of a volume that are all in use, without extra words.
pub fn volume(segments: &[Vec<(u16, Name, u16)>]) -> Volume {
    let n = segments.len();
    let mut words = vec![0; 512 * n];
    let mut block = 6 + 2 * n;
    for (s, entries) in segments.iter().enumerate() {
        let g = &mut words[512 * s..512 * (s + 1)];
        let link = if s + 1 < n { s + 2 } else { 0 };
        let highest = if s == 0 { n } else { 0 };
        g[..5].copy_from_slice(&[n as u16, link as u16, highest as u16, 0, block as u16]);
        for (k, (status, name, length)) in entries.iter().enumerate() {
            let entry = [*status, name.first, name.second, name.extension, *length, 0, 3556];
            g[5 + 7 * k..12 + 7 * k].copy_from_slice(&entry);
            block += *length as usize;
        }
        g[5 + 7 * entries.len()] = 2048;
    }
    Volume { words, v: block }
}

/// Segments of 71 files of one block; with an area, the last has 69 files and then an area of 100 blocks.
pub fn full(count: usize, names: &[Name], area: bool) -> Volume {
    let files = |part: &[Name]| part.iter().map(|name| (1024, *name, 1)).collect();
    let mut segments: Vec<Vec<(u16, Name, u16)>> = names.chunks(71).take(count).map(files).collect();
    if area {
        let last = segments.last_mut().unwrap();
        last.truncate(69);
        last.push((512, names[0], 100));
    }
    volume(&segments)
}

/// Half of the segments are in use and full, and an area stands in the middle of the last of them: an enter splits it.
pub fn splitting(count: usize, names: &[Name]) -> Volume {
    let mut made = full(count, names, false);
    let g = &mut made.words[512 * (count - 1)..];
    g[5 + 7 * 40] = 512;
    g[5 + 7 * 40 + 4] = 100;
    made.v += 99;
    for k in (0..count).rev() {
        made.words[512 * k] = 2 * count as u16;
        made.words[512 * k + 4] += 2 * count as u16;
    }
    made.words.resize(1024 * count, 0);
    made.v += 2 * count;
    made
}

/// 2,000 files over 31 segments, of 1 to 20 blocks, with up to three areas of 1 to 30 blocks in each segment.
pub fn working(names: &[Name], random: &mut Random) -> Volume {
    let mut segments: Vec<Vec<(u16, Name, u16)>> = vec![Vec::new(); 31];
    for (k, name) in names.iter().enumerate() {
        segments[k % 31].push((1024, *name, 1 + random.below(20) as u16));
    }
    for part in &mut segments {
        for _ in 0..random.below(4) {
            let at = random.below(part.len() + 1);
            part.insert(at, (512, names[0], 1 + random.below(30) as u16));
        }
    }
    volume(&segments)
}

fn take(list: &mut Vec<Name>, random: &mut Random) -> Name {
    let k = random.below(list.len());
    list.swap_remove(k)
}

/// One request: 40 of 100 look up, 18 enter, 15 close, 4 abandon, 10 delete, 13 rename; one name in ten is no file's.
fn request(files: &mut Vec<Name>, random: &mut Random) -> Request {
    let op = match random.below(100) {
        0..=39 => Op::Lookup,
        40..=57 => Op::Enter,
        58..=72 => Op::Close,
        73..=76 => Op::Abandon,
        77..=86 => Op::Delete,
        _ => Op::Rename,
    };
    let new_name = random.name();
    let name = match op {
        Op::Enter => random.name(),
        _ if random.below(10) == 0 => random.name(),
        Op::Delete | Op::Rename => take(files, random),
        _ => files[random.below(files.len())],
    };
    let (job, channel) = (2 * random.below(2) as u16, random.below(4) as u16);
    let (size, final_length) = (random.below(12) as i32 - 1, random.below(4) as i32);
    Request { op, name, new_name, job, channel, size, final_length, date: 3556 }
}

/// Mixed requests on a volume with these files. Those renamed and entered are asked for later too.
pub fn batch(volume: &Volume, names: &[Name], count: usize, random: &mut Random) -> Vec<Request> {
    let (mut words, mut files, mut open) = (volume.words.clone(), names.to_vec(), Vec::new());
    let mut list = Vec::new();
    while list.len() < count {
        let r = request(&mut files, random);
        let mut answers = [Answer::default()];
        ordinary::run(&mut words, volume.v, &[r], &mut answers);
        match r.op {
            _ if answers[0].number != 0 => {}
            Op::Rename => files.push(r.new_name),
            Op::Enter => open.push((r.job, r.channel, r.name)),
            Op::Close => files.extend(open.iter().find(|o| (o.0, o.1) == (r.job, r.channel)).map(|o| o.2)),
            _ => {}
        }
        if matches!(r.op, Op::Close | Op::Abandon) && answers[0].number == 0 {
            open.retain(|o| (o.0, o.1) != (r.job, r.channel));
        }
        list.push(r);
    }
    list
}

/// A head file: of version 2 where there is a block 1 for it.
pub fn head_file(d: &[u16], v: u16, block: Option<&[u8]>) -> Vec<u8> {
    let version = 1 + block.is_some() as u16;
    let mut file = b"RVH".to_vec();
    file.extend([version, v].into_iter().flat_map(u16::to_le_bytes));
    file.extend_from_slice(block.unwrap_or(&[]));
    file.extend(d.iter().copied().flat_map(u16::to_le_bytes));
    file
}

/// Any bytes, with a label and the mark written over them.
pub fn labelled_block(random: &mut Random) -> Vec<u8> {
    let mut block: Vec<u8> = (0..512).map(|_| random.below(256) as u8).collect();
    let (name, owner) = (label_text(random), label_text(random));
    assert_eq!(ordinary::write_label(&mut block, &name, &owner), 0);
    block
}

pub fn label_text(random: &mut Random) -> [u8; 12] {
    std::array::from_fn(|_| 32 + random.below(95) as u8)
}
