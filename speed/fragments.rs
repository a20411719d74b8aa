//! Work for speed/run to count: a message over Bluetooth in fragments, written and read, by our archive and by Rust that is written by
//! hand, each so many times. OpenSK has none.
//!   fragments JOB=COUNT ...   each job in its turn, with a call of speed_mark before each and after it
//!   fragments --jobs          the jobs, SIDE:WHAT:ROW
//!   fragments --check         compares what the two sides write and read, byte for byte
//! All but main needs no std: it is a module of speed/m4/main.rs too.
extern crate alloc;

#[allow(dead_code)]
#[path = "../bindings/rust/src/raw.rs"]
mod raw;

use alloc::vec;
use alloc::vec::Vec;
use core::hint::black_box;

const LEN: usize = 1024;
const MSG: u8 = 0x83;

pub struct Row {
    /// The fragment size, and the message's length.
    pub name: &'static str,
    size: usize,
}

pub fn rows() -> Vec<Row> {
    let row = |name, size| Row { name, size };
    vec![row("20-1024", 20), row("512-1024", 512)]
}

pub const JOBS: [&str; 4] = ["rust:written", "rust:read", "ours:written", "ours:read"];

// ---- by hand

/// What of a message is still to be sent: a firmware keeps its place, and has nothing to divide.
struct Writer<'a> {
    size: usize,
    cmd: u8,
    payload: &'a [u8],
    at: usize,
    /// The next number; none before the first fragment.
    seq: Option<u8>,
}

impl<'a> Writer<'a> {
    fn new(size: usize, cmd: u8, payload: &'a [u8]) -> Option<Writer<'a>> {
        let is_command = matches!(cmd, 0x81 | 0x82 | 0x83 | 0xBE | 0xBF);
        let is_size = (20..=512).contains(&size);
        (is_size && is_command && payload.len() <= 0xFFFF).then_some(Writer {
            size,
            cmd,
            payload,
            at: 0,
            seq: None,
        })
    }

    #[inline(always)]
    fn next<'b>(&mut self, buffer: &'b mut [u8]) -> Option<&'b [u8]> {
        if self.seq.is_some() && self.at == self.payload.len() || buffer.len() < self.size {
            return None;
        }
        let head = match self.seq {
            None => {
                let [high, low] = (self.payload.len() as u16).to_be_bytes();
                buffer[..3].copy_from_slice(&[self.cmd, high, low]);
                self.seq = Some(0);
                3
            }
            Some(seq) => {
                buffer[0] = seq;
                self.seq = Some((seq + 1) % 128);
                1
            }
        };
        let rest = &self.payload[self.at..];
        let data = &rest[..rest.len().min(self.size - head)];
        buffer[head..head + data.len()].copy_from_slice(data);
        self.at += data.len();
        Some(&buffer[..head + data.len()])
    }
}

/// A message on its way in. Its fields are its own, so none is looked at to see whether it makes sense.
struct Reader {
    buffer: Vec<u8>,
    begun: Option<Begun>,
}

struct Begun {
    cmd: u8,
    len: usize,
    taken: usize,
    seq: u8,
}

impl Reader {
    /// The refusal, in ours's order; or whether the message is whole, with its command and length.
    #[inline(always)]
    fn take(&mut self, size: usize, fragment: &[u8]) -> Result<Option<(u8, usize)>, u8> {
        if !(20..=512).contains(&size) {
            return Err(14);
        }
        if fragment.len() > size {
            return Err(15);
        }
        let (begun, data) = match *fragment {
            [cmd @ 0x80..=0xFF, high, low, ref data @ ..] => {
                if self.begun.is_some() {
                    return Err(16);
                }
                let len = usize::from(u16::from_be_bytes([high, low]));
                if len > self.buffer.len() {
                    return Err(17);
                }
                if data.len() > len {
                    return Err(18);
                }
                let begun = Begun {
                    cmd,
                    len,
                    taken: 0,
                    seq: 0,
                };
                (self.begun.insert(begun), data)
            }
            [] | [0x80..=0xFF, ..] => return Err(15),
            [number, ref data @ ..] => {
                let Some(begun) = &mut self.begun else {
                    return Err(16);
                };
                if number != begun.seq {
                    return Err(16);
                }
                if data.len() > begun.len - begun.taken {
                    return Err(18);
                }
                begun.seq = (number + 1) % 128;
                (begun, data)
            }
        };
        self.buffer[begun.taken..begun.taken + data.len()].copy_from_slice(data);
        begun.taken += data.len();
        if begun.taken < begun.len {
            return Ok(None);
        }
        let whole = (begun.cmd, begun.len);
        self.begun = None;
        Ok(Some(whole))
    }
}

// ---- the sides: a message, of which each fragment or the whole is handed to a sink

trait Side {
    fn message(&mut self, size: usize, sink: &mut impl FnMut(&[u8]));
}

struct RustWritten {
    payload: Vec<u8>,
    buffer: Vec<u8>,
}

impl Side for RustWritten {
    #[inline(always)]
    fn message(&mut self, size: usize, sink: &mut impl FnMut(&[u8])) {
        let mut writer = Writer::new(size, MSG, &self.payload).unwrap();
        while let Some(fragment) = black_box(&mut writer).next(&mut self.buffer) {
            sink(fragment);
        }
    }
}

struct OursWritten {
    payload: Vec<u8>,
    buffer: Vec<u8>,
}

impl Side for OursWritten {
    #[inline(always)]
    fn message(&mut self, size: usize, sink: &mut impl FnMut(&[u8])) {
        let OursWritten { payload, buffer } = self;
        for index in 0..raw::ble_fragment_count(size, payload.len()).len {
            let outcome = raw::ble_write_fragment(size, MSG, payload, black_box(index), buffer);
            sink(&buffer[..outcome.len]);
        }
    }
}

struct RustRead {
    reader: Reader,
    fragments: Vec<Vec<u8>>,
}

impl Side for RustRead {
    #[inline(always)]
    fn message(&mut self, size: usize, sink: &mut impl FnMut(&[u8])) {
        for fragment in &self.fragments {
            if let Ok(Some((_, len))) = black_box(&mut self.reader).take(size, black_box(fragment))
            {
                sink(&self.reader.buffer[..len]);
            }
        }
    }
}

struct OursRead {
    collection: raw::Collection,
    buffer: Vec<u8>,
    fragments: Vec<Vec<u8>>,
}

impl Side for OursRead {
    #[inline(always)]
    fn message(&mut self, size: usize, sink: &mut impl FnMut(&[u8])) {
        for fragment in &self.fragments {
            let collection = black_box(&mut self.collection);
            let outcome =
                raw::ble_read_fragment(collection, size, black_box(fragment), &mut self.buffer);
            if outcome.kind == raw::kind::COLLECTED {
                sink(&self.buffer[..outcome.len]);
            }
        }
    }
}

// ---- jobs

fn payload() -> Vec<u8> {
    (0..LEN).map(|i| i as u8).collect()
}

/// What a message of payload is in fragments: they are read, and all that is written is compared with them.
fn cut(size: usize) -> Vec<Vec<u8>> {
    let payload = payload();
    let (first, rest) = payload.split_at(LEN.min(size - 3));
    let head = [MSG, (LEN >> 8) as u8, LEN as u8];
    let mut fragments = vec![[&head[..], first].concat()];
    for (seq, data) in rest.chunks(size - 1).enumerate() {
        fragments.push([&[(seq % 128) as u8], data].concat());
    }
    fragments
}

fn repeat(mut side: impl Side, row: &Row, count: usize, mut sink: impl FnMut(&[u8])) {
    speed_mark();
    for _ in 0..count {
        // nothing is known beforehand
        black_box(&mut side).message(black_box(row.size), &mut sink);
    }
    speed_mark();
}

pub fn run(job: &str, row: &Row, count: usize, sink: impl FnMut(&[u8])) {
    let buffer = vec![0; LEN];
    let fragments = cut(row.size);
    match job {
        "rust:written" => {
            let side = RustWritten {
                payload: payload(),
                buffer,
            };
            repeat(side, row, count, sink)
        }
        "ours:written" => {
            let side = OursWritten {
                payload: payload(),
                buffer,
            };
            repeat(side, row, count, sink)
        }
        "rust:read" => {
            let reader = Reader {
                buffer,
                begun: None,
            };
            repeat(RustRead { reader, fragments }, row, count, sink)
        }
        "ours:read" => {
            let side = OursRead {
                collection: raw::Collection::default(),
                buffer,
                fragments,
            };
            repeat(side, row, count, sink)
        }
        _ => panic!("no job {job}"),
    }
}

pub fn check(rows: &[Row]) {
    for row in rows {
        for job in JOBS {
            let mut said = vec![];
            run(job, row, 3, |bytes| said.push(bytes.to_vec()));
            let once = if job.ends_with("read") {
                vec![payload()]
            } else {
                cut(row.size)
            };
            assert_eq!(
                said,
                [&once[..], &once, &once].concat(),
                "{job} {}",
                row.name
            );
        }
    }
}

/// callgrind counts from one call of this to the next.
#[unsafe(no_mangle)]
#[inline(never)]
extern "C" fn speed_mark() {
    black_box(());
}

#[cfg(not(target_os = "none"))]
fn main() {
    let rows = rows();
    for word in std::env::args().skip(1) {
        match &word[..] {
            "--check" => check(&rows),
            "--jobs" => {
                for job in JOBS {
                    for row in &rows {
                        println!("{job}:{}", row.name);
                    }
                }
            }
            _ => {
                let (job, count) = word.split_once('=').expect("JOB=COUNT");
                let (job, name) = job.rsplit_once(':').expect("SIDE:WHAT:ROW");
                let row = rows.iter().find(|row| row.name == name).expect("a row");
                run(job, row, count.parse().expect("a count"), |bytes| {
                    black_box(bytes);
                });
            }
        }
    }
}
