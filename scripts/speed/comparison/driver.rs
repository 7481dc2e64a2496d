//! Times libraries in one process, in turn: ours, the Rust crate and bincode for `scripts/speed/beside.sh`, and ours
//! before and after a change for `scripts/speed/against.sh`.
use bincode::Options;
use bitcode::{Buffer, Decode, Encode};
use serde::{Deserialize, Serialize};
use std::collections::BTreeMap;
use std::hint::black_box;
use std::time::{Duration, Instant};

include!(env!("TABLE"));
include!(env!("SETS"));

type Call = unsafe extern "C" fn(*const u8, usize, u64) -> u64;

pub struct Workload {
    format: &'static str,
    name: &'static str,
    prepare: fn(usize) -> Prepared,
}

pub struct Ours {
    encode: Call,
    buffer: Option<Call>,
    decode: Call,
    agrees: Call,
}

/// Time of so many calls: 'e' encodes, 'b' encodes by one buffer, 'd' decodes.
type Run = Box<dyn Fn(char, u64) -> Option<Duration>>;

/// A library, the number of its bytes, and its calls.
type Prepared = Vec<(&'static str, usize, Run)>;

/// Numbers that look random: splitmix64.
struct Random(u64);

impl Random {
    fn next(&mut self) -> u64 {
        self.0 = self.0.wrapping_add(0x9e37_79b9_7f4a_7c15);
        let z = (self.0 ^ (self.0 >> 30)).wrapping_mul(0xbf58_476d_1ce4_e5b9);
        let z = (z ^ (z >> 27)).wrapping_mul(0x94d0_49bb_1331_11eb);
        z ^ (z >> 31)
    }
    fn below(&mut self, end: usize) -> usize {
        (self.next() % end as u64) as usize
    }
}

type Record = (u64, String, bool, Option<u32>, Vec<u8>);

#[derive(Serialize, Deserialize)]
struct Comment {
    id: u64,
    text: String,
    replies: Vec<Comment>,
}

fn list<T>(n: usize, mut element: impl FnMut(&mut Random) -> T) -> Vec<T> {
    let mut random = Random(7);
    (0..n).map(|_| element(&mut random)).collect()
}
fn text(r: &mut Random) -> String {
    let n = r.below(16);
    (0..n).map(|_| (b'a' + r.below(26) as u8) as char).collect()
}
fn bytes(r: &mut Random, end: usize) -> Vec<u8> {
    let n = r.below(end);
    (0..n).map(|_| r.next() as u8).collect()
}
fn pair(r: &mut Random) -> (u8, i16) {
    (r.next() as u8, r.next() as i16)
}
fn level(r: &mut Random) -> (u8, Option<i16>) {
    (r.next() as u8, (r.below(2) == 0).then(|| r.next() as i16))
}
fn record(r: &mut Random) -> Record {
    let score = (r.below(3) != 0).then(|| r.next() as u32 % 100_000);
    (r.next() >> 20, text(r), r.below(2) == 0, score, bytes(r, 12))
}
fn one_record() -> Record {
    (1 << 40, "thirteen text".into(), true, Some(70_000), (0..7).collect())
}
fn note(r: &mut Random) -> Result<String, i16> {
    if r.below(2) == 0 { Ok(text(r)) } else { Err(r.next() as i16) }
}
fn map(n: usize) -> BTreeMap<u32, String> {
    let (mut r, mut map) = (Random(7), BTreeMap::new());
    while map.len() < n {
        map.insert(r.next() as u32, text(&mut r));
    }
    map
}
/// A tree of n comments, each with up to four replies, up to ten deep.
fn tree(n: usize) -> Comment {
    fn grow(r: &mut Random, left: &mut usize, depth: u32) -> Comment {
        *left = left.saturating_sub(1);
        let mut comment = Comment { id: r.next() % 100_000, text: text(r), replies: vec![] };
        while depth < 10 && comment.replies.len() < 4 && *left > 0 {
            comment.replies.push(grow(r, left, depth + 1));
        }
        comment
    }
    grow(&mut Random(7), &mut { n }, 0)
}

fn timed<R>(times: u64, mut call: impl FnMut() -> R) -> Option<Duration> {
    let start = Instant::now();
    for _ in 0..times {
        drop(black_box(call()));
    }
    Some(start.elapsed())
}

fn ours(calls: Ours, bytes: &'static [u8]) -> Run {
    assert_eq!(unsafe { (calls.agrees)(bytes.as_ptr(), bytes.len(), 1) }, 1, "other bytes than the Rust crate's");
    Box::new(move |op, times| {
        let call = match op {
            'e' => calls.encode,
            'b' => calls.buffer?,
            _ => calls.decode,
        };
        let start = Instant::now();
        let answer = unsafe { call(bytes.as_ptr(), bytes.len(), times) };
        let took = start.elapsed();
        assert_eq!(answer, if op == 'd' { times } else { times * bytes.len() as u64 });
        Some(took)
    })
}

fn bincode<T: Serialize + Deserialize<'static> + 'static>(value: &'static T, options: impl Options + Copy + 'static) -> (usize, Run) {
    let bytes: &'static [u8] = options.serialize(value).unwrap().leak();
    let run: Run = Box::new(move |op, times| match op {
        'e' => timed(times, || options.serialize(black_box(value)).unwrap()),
        'b' => {
            let mut buffer: Vec<u8> = Vec::new();
            timed(times, || {
                buffer.clear();
                options.serialize_into(&mut buffer, black_box(value)).unwrap();
                black_box(&buffer);
            })
        }
        _ => timed(times, || options.deserialize::<T>(black_box(bytes)).unwrap()),
    });
    (bytes.len(), run)
}

/// Ours beside the others, or beside ours before a change, if there is one.
fn prepared<T: Serialize + Deserialize<'static> + 'static>(bytes: &'static [u8], value: &'static T, calls: Ours, before: Option<Ours>, theirs: Run) -> Prepared {
    let here = ("ours", bytes.len(), ours(calls, bytes));
    if let Some(calls) = before {
        return vec![here, ("before", bytes.len(), ours(calls, bytes))];
    }
    let (varint, by_varint) = bincode(value, bincode::DefaultOptions::new());
    let (fixed, by_fixed) = bincode(value, bincode::DefaultOptions::new().with_fixint_encoding());
    vec![here, ("bitcode", bytes.len(), theirs), ("bincode varint", varint, by_varint), ("bincode fixed", fixed, by_fixed)]
}

fn first<T: Encode + Decode<'static> + Serialize + Deserialize<'static> + 'static>(bytes: Vec<u8>, calls: Ours, before: Option<Ours>) -> Prepared {
    let bytes: &'static [u8] = bytes.leak();
    let value: &'static T = Box::leak(Box::new(bitcode::decode(bytes).unwrap()));
    let theirs: Run = Box::new(move |op, times| match op {
        'e' => timed(times, || bitcode::encode(black_box(value))),
        'b' => {
            let mut buffer = Buffer::new();
            timed(times, || {
                black_box(buffer.encode(black_box(value)));
            })
        }
        _ => timed(times, || bitcode::decode::<T>(black_box(bytes)).unwrap()),
    });
    prepared(bytes, value, calls, before, theirs)
}

fn second<T: Serialize + Deserialize<'static> + 'static>(bytes: Vec<u8>, calls: Ours, before: Option<Ours>) -> Prepared {
    let bytes: &'static [u8] = bytes.leak();
    let value: &'static T = Box::leak(Box::new(bitcode::deserialize(bytes).unwrap()));
    let theirs: Run = Box::new(move |op, times| match op {
        'e' => timed(times, || bitcode::serialize(black_box(value)).unwrap()),
        'b' => None,
        _ => timed(times, || bitcode::deserialize::<T>(black_box(bytes)).unwrap()),
    });
    prepared(bytes, value, calls, before, theirs)
}

/// How often a call fits into so many microseconds, less what it does once.
fn fitting(run: &Run, op: char, microseconds: f64) -> Option<u64> {
    let mut times = 1;
    loop {
        let took = run(op, times)?.saturating_sub(run(op, 0)?).as_nanos() as f64 / 1000.0;
        if took > microseconds / 5.0 || times > 1 << 22 {
            return Some(((times as f64 * microseconds / took.max(0.001)) as u64).max(1));
        }
        times *= 4;
    }
}

/// Nanoseconds a call of each, the least of some rounds in which each has its turn.
fn least(runs: &[Run], op: char, rounds: usize, microseconds: f64) -> Vec<Option<f64>> {
    let times: Vec<_> = runs.iter().map(|run| fitting(run, op, microseconds)).collect();
    let mut least = vec![(f64::MAX, f64::MAX); runs.len()];
    for _ in 0..rounds {
        for ((run, times), (all, once)) in runs.iter().zip(&times).zip(&mut least) {
            if let Some(times) = times {
                *once = once.min(run(op, 0).unwrap().as_nanos() as f64);
                *all = all.min(run(op, *times).unwrap().as_nanos() as f64);
            }
        }
    }
    times.iter().zip(least).map(|(times, (all, once))| times.map(|times| (all - once) / times as f64)).collect()
}

/// The lesser of the times of two passes.
fn lesser(a: &[Option<f64>], b: &[Option<f64>]) -> Vec<Option<f64>> {
    a.iter().zip(b).map(|(a, b)| a.zip(*b).map(|(a, b)| a.min(b))).collect()
}

/// A line of the table: the words before the times, how many elements there are, and the nanoseconds a call.
type Line = (String, usize, Vec<Option<f64>>);

fn lines_of(workload: &Workload, n: usize) -> Vec<Line> {
    let (words, runs): (Vec<_>, Vec<_>) = (workload.prepare)(n).into_iter().map(|(name, size, run)| {
        (format!("{}\t{}\t{n}\t{name}\t{size}", workload.format, workload.name), run)
    }).unzip();
    let (rounds, microseconds) = if n >= 1_000_000 { (3, 20_000.0) } else { (15, 1_000.0) };
    let times: Vec<_> = ['e', 'b', 'd'].iter().map(|op| least(&runs, *op, rounds, microseconds)).collect();
    words.into_iter().enumerate().map(|(i, words)| (words, n, times.iter().map(|it| it[i]).collect())).collect()
}

/// A line of a call of ours alone.
fn line_of(name: &str, n: usize, size: usize, calls: [Option<Call>; 3], bytes: &'static [u8]) -> Line {
    let run = |call: Call| -> Run {
        Box::new(move |_, times| {
            let start = Instant::now();
            black_box(unsafe { call(bytes.as_ptr(), bytes.len(), times) });
            Some(start.elapsed())
        })
    };
    let times = calls.iter().map(|call| least(&[run((*call)?)], 'e', 40, 1_000.0)[0]).collect();
    (format!("other\t{name}\t{n}\tours\t{size}"), n, times)
}

fn pass(only: &str, sizes: &[usize]) -> Vec<Line> {
    let mut lines = vec![];
    for workload in workloads().iter().filter(|it| it.name.contains(only)) {
        for &n in if ["single", "set"].contains(&workload.format) { &[1][..] } else { sizes } {
            lines.extend(lines_of(workload, n));
        }
    }
    let record: &'static [u8] = bitcode::encode(&one_record()).leak();
    lines.push(line_of("the record, sealed", 1, record.len() + 24, [Some(call_seal), None, Some(call_open)], record));
    let megabyte: &'static [u8] = list(1_000_000, |r| r.next() as u8).leak();
    lines.push(line_of("CRC-32 of a megabyte", megabyte.len(), 4, [Some(call_crc), None, None], megabyte));
    lines
}

fn main() {
    let words: Vec<String> = std::env::args().collect();
    let sizes: Vec<usize> = words[2].split(',').map(|it| it.parse().unwrap()).collect();
    // Two passes, so that what slows the machine for some seconds is in one of them alone.
    for ((words, n, a), (_, _, b)) in pass(&words[1], &sizes).iter().zip(pass(&words[1], &sizes)) {
        let cells: Vec<_> = lesser(a, &b).iter().map(|it| it.map_or("-".into(), |it| format!("{:.3}", it / *n as f64))).collect();
        println!("{words}\t{}", cells.join("\t"));
    }
}
