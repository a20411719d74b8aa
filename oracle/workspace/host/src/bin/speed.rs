//! Work for speed/run to count: rows of docs/SPEED.md, each so many times.
//!   speed JOB=COUNT ...   each job in its turn, with a call of speed_mark before each and after the last
//!   speed --jobs          the jobs, SIDE:WHAT:ROW
//!   speed --check         compares what the two sides answer to each row, packet for packet
//! All but main needs no std: it is a module of speed/m4/main.rs too.
extern crate alloc;

#[allow(dead_code)]
#[path = "diff/ours.rs"]
mod ours;
#[allow(dead_code)]
#[path = "interfaces/raw_key.rs"]
mod raw_key;

use alloc::format;
use alloc::vec;
use alloc::vec::Vec;
use core::hint::black_box;
use host::HostEnv;
use opensk::ctap::CtapState;
use opensk::ctap::hid::{CtapHid, HidPacket};
use opensk::ctap::main_hid::MainHid;
use ours::{COLLECTED, ECHO, MESSAGE, REPLY, raw};

const LARGEST: usize = 7609;
const BROADCAST: u32 = 0xffff_ffff;
const PING: u8 = 1;
const LOCK: u8 = 4;
const INIT: u8 = 6;

/// Every step is at this time, so that no timer elapses.
const TIME: u64 = 5;

// ---- the rows

pub struct Row {
    pub name: &'static str,
    /// What comes first, and is not counted.
    before: Vec<HidPacket>,
    /// One message.
    packets: Vec<HidPacket>,
}

impl Row {
    /// Its message, with nothing before.
    fn alone(&self) -> Row {
        Row {
            before: vec![],
            packets: self.packets.clone(),
            ..*self
        }
    }
}

pub fn rows() -> Vec<Row> {
    // two channels
    let open = [init(), init()].concat();
    let long = message(1, PING, LARGEST);
    let half = [&open[..], &long[..1]].concat();
    let mut lock = message(1, LOCK, 1);
    lock[0][7] = 10;
    let spurious = long[1..2].to_vec();
    let row = |name, before: &[HidPacket], packets| Row {
        name,
        before: before.to_vec(),
        packets,
    };
    vec![
        row("ping-0", &open, message(1, PING, 0)),
        row("ping-57", &open, message(1, PING, 57)),
        row("ping-58", &open, message(1, PING, 58)),
        row("ping-1000", &open, message(1, PING, 1000)),
        row("ping-7609", &open, long),
        row("init", &open, init()),
        row("invalid-channel", &open, message(9, PING, 0)),
        row("channel-busy", &half, message(2, PING, 0)),
        row("spurious", &open, spurious),
        row("lock", &open, lock),
    ]
}

/// A PING of so many bytes.
#[cfg(target_os = "none")]
pub fn ping(name: &'static str, len: usize) -> Row {
    Row {
        name,
        before: [init(), init()].concat(),
        packets: message(1, PING, len),
    }
}

fn init() -> Vec<HidPacket> {
    message(BROADCAST, INIT, 8)
}

fn message(cid: u32, cmd: u8, len: usize) -> Vec<HidPacket> {
    let payload: Vec<u8> = (0..len).map(|i| i as u8).collect();
    let (first, rest) = payload.split_at(len.min(57));
    let front = [cmd | 0x80, (len >> 8) as u8, len as u8];
    let mut packets = vec![packet(cid, &front, first)];
    for (seq, data) in rest.chunks(59).enumerate() {
        packets.push(packet(cid, &[seq as u8], data));
    }
    packets
}

fn packet(cid: u32, front: &[u8], data: &[u8]) -> HidPacket {
    let bytes = [&cid.to_be_bytes(), front, data].concat();
    let mut packet = [0; 64];
    packet[..bytes.len()].copy_from_slice(&bytes);
    packet
}

// ---- the sides

/// Takes a packet, and hands what it answers to a sink.
trait Side {
    fn step(&mut self, packet: &HidPacket, sink: &mut impl FnMut(&[u8]));
}

/// OpenSK's transport: the message, dropped.
struct RustReceived {
    env: HostEnv,
    hid: CtapHid<HostEnv>,
}

impl Side for RustReceived {
    #[inline(always)]
    fn step(&mut self, packet: &HidPacket, sink: &mut impl FnMut(&[u8])) {
        let answer = self.hid.parse_packet(&mut self.env, packet, false);
        if let Some(message) = answer {
            sink(&message.payload);
        }
    }
}

/// OpenSK's device: the iterator, dropped before or after all packets were drawn.
struct RustDevice<const DRAWN: bool> {
    env: HostEnv,
    hid: MainHid<HostEnv>,
    authenticator: CtapState<HostEnv>,
}

impl<const DRAWN: bool> Side for RustDevice<DRAWN> {
    #[inline(always)]
    fn step(&mut self, packet: &HidPacket, sink: &mut impl FnMut(&[u8])) {
        let RustDevice {
            env,
            hid,
            authenticator,
        } = self;
        let packets = hid.process_hid_packet(env, packet, false, authenticator);
        if DRAWN {
            for packet in packets {
                sink(&packet);
            }
        } else {
            black_box(&packets);
        }
    }
}

struct OursReceived {
    hid: ours::CtapHid,
    message: Vec<u8>,
    reply: Vec<u8>,
}

impl Side for OursReceived {
    #[inline(always)]
    fn step(&mut self, packet: &HidPacket, sink: &mut impl FnMut(&[u8])) {
        let OursReceived {
            hid,
            message,
            reply,
        } = self;
        let outcome = ours::transport_step(hid, TIME, false, packet, message, reply);
        match outcome.kind {
            MESSAGE | ECHO => sink(&message[..outcome.len]),
            REPLY => sink(&reply[..outcome.len]),
            _ => (),
        }
    }
}

/// What our device's side is counted for: the device of one interface, or an interface of a key with two.
trait Device {
    fn step(&mut self, packet: &[u8], message: &mut [u8], reply: &mut [u8]) -> ours::Outcome;
}

impl Device for ours::MainHid {
    #[inline(always)]
    fn step(&mut self, packet: &[u8], message: &mut [u8], reply: &mut [u8]) -> ours::Outcome {
        ours::device_step(self, TIME, false, packet, message, reply)
    }
}

struct Main(raw_key::Key);

impl Device for Main {
    #[inline(always)]
    fn step(&mut self, packet: &[u8], message: &mut [u8], reply: &mut [u8]) -> ours::Outcome {
        raw_key::main_step(&mut self.0, TIME, packet, message, reply)
    }
}

struct Vendor(raw_key::Key);

impl Device for Vendor {
    #[inline(always)]
    fn step(&mut self, packet: &[u8], message: &mut [u8], reply: &mut [u8]) -> ours::Outcome {
        raw_key::vendor_step(&mut self.0, TIME, packet, message, reply)
    }
}

struct OursDevice<D, const DRAWN: bool> {
    device: D,
    message: Vec<u8>,
    reply: Vec<u8>,
}

impl<D: Device, const DRAWN: bool> Side for OursDevice<D, DRAWN> {
    #[inline(always)]
    fn step(&mut self, packet: &HidPacket, sink: &mut impl FnMut(&[u8])) {
        let OursDevice {
            device,
            message,
            reply,
        } = self;
        let outcome = device.step(packet, message, reply);
        if !DRAWN {
            black_box(&outcome);
            return;
        }
        let payload = match outcome.kind {
            ECHO => &message[..outcome.len],
            REPLY => &reply[..outcome.len],
            _ => return,
        };
        let mut packet = [0; 64];
        for index in 0..ours::packet_count(payload.len()).len {
            ours::write_packet(outcome.cid, outcome.cmd, payload, index, &mut packet);
            sink(&packet);
        }
    }
}

/// Our host reader, on the channel that the long message is on. OpenSK has none.
struct OursHost {
    collection: ours::Collection,
    buffer: Vec<u8>,
}

impl Side for OursHost {
    #[inline(always)]
    fn step(&mut self, packet: &HidPacket, sink: &mut impl FnMut(&[u8])) {
        let outcome = ours::host_read(&mut self.collection, 1, packet, &mut self.buffer);
        if outcome.kind == COLLECTED {
            sink(&self.buffer[..outcome.len]);
        }
    }
}

/// No protocol at all: each packet's data, 57 and then 59 bytes, is copied to its place.
struct Copy {
    buffer: Vec<u8>,
    at: usize,
}

impl Side for Copy {
    #[inline(always)]
    fn step(&mut self, packet: &HidPacket, sink: &mut impl FnMut(&[u8])) {
        let from = if self.at == 0 { 7 } else { 5 };
        let len = (64 - from).min(self.buffer.len() - self.at);
        self.buffer[self.at..self.at + len].copy_from_slice(&packet[from..from + len]);
        self.at += len;
        if self.at == self.buffer.len() {
            sink(&self.buffer);
            self.at = 0;
        }
    }
}

// ---- jobs

pub const JOBS: [&str; 8] = [
    "rust:received",
    "rust:device",
    "rust:drawn",
    "ours:received",
    "ours:device",
    "ours:drawn",
    "ours:main",
    "ours:vendor",
];

/// Feeds a row's packets so many times, after what comes before.
fn feed(mut side: impl Side, row: &Row, count: usize, mut sink: impl FnMut(&[u8])) {
    for packet in &row.before {
        side.step(packet, &mut |_| ());
    }
    speed_mark();
    for _ in 0..count {
        for packet in &row.packets {
            // the state is in memory and the packet is not known beforehand
            black_box(&mut side).step(black_box(packet), &mut sink);
        }
    }
    speed_mark();
}

/// callgrind counts from one call of this to the next.
#[unsafe(no_mangle)]
#[inline(never)]
extern "C" fn speed_mark() {
    black_box(());
}

fn env() -> HostEnv {
    let mut env = HostEnv::new(LARGEST);
    env.now.0 = TIME;
    env
}

fn rust_device<const DRAWN: bool>() -> RustDevice<DRAWN> {
    let mut env = env();
    RustDevice {
        authenticator: CtapState::new(&mut env),
        env,
        hid: MainHid::default(),
    }
}

fn ours_device<D, const DRAWN: bool>(device: D) -> OursDevice<D, DRAWN> {
    OursDevice {
        device,
        message: vec![0; LARGEST],
        reply: vec![0; 17],
    }
}

fn device() -> ours::MainHid {
    ours::device_new(LARGEST, true, &[]).0
}

fn key() -> raw_key::Key {
    let mut key = raw_key::Key::default();
    raw_key::new(&mut key, LARGEST, LARGEST, true, &[]);
    key
}

pub fn run(job: &str, row: &Row, count: usize, sink: impl FnMut(&[u8])) {
    match job {
        "rust:received" => {
            let side = RustReceived {
                env: env(),
                hid: CtapHid::new(5),
            };
            feed(side, row, count, sink)
        }
        "rust:device" => feed(rust_device::<false>(), row, count, sink),
        "rust:drawn" => feed(rust_device::<true>(), row, count, sink),
        "ours:received" => {
            let side = OursReceived {
                hid: ours::transport_new(LARGEST, true, &[]).0,
                message: vec![0; LARGEST],
                reply: vec![0; 17],
            };
            feed(side, row, count, sink)
        }
        "ours:device" => feed(ours_device::<_, false>(device()), row, count, sink),
        "ours:drawn" => feed(ours_device::<_, true>(device()), row, count, sink),
        "ours:main" => feed(ours_device::<_, false>(Main(key())), row, count, sink),
        "ours:vendor" => feed(ours_device::<_, false>(Vendor(key())), row, count, sink),
        "ours:main-drawn" => feed(ours_device::<_, true>(Main(key())), row, count, sink),
        "ours:vendor-drawn" => feed(ours_device::<_, true>(Vendor(key())), row, count, sink),
        "ours:host" => {
            let side = OursHost {
                collection: ours::Collection::default(),
                buffer: vec![0; LARGEST],
            };
            feed(side, &row.alone(), count, sink)
        }
        "copy:received" => {
            let side = Copy {
                buffer: vec![0; LARGEST],
                at: 0,
            };
            feed(side, &row.alone(), count, sink)
        }
        _ => panic!("no job {job}"),
    }
}

pub fn check(rows: &[Row]) {
    for row in rows {
        let said = |job: &str| {
            let mut said = vec![];
            run(job, row, 3, |bytes| said.push(bytes.to_vec()));
            said
        };
        for (what, ours) in [
            ("received", "received"),
            ("drawn", "drawn"),
            ("drawn", "main-drawn"),
            ("drawn", "vendor-drawn"),
        ] {
            let [rust, ours] = [format!("rust:{what}"), format!("ours:{ours}")];
            assert_eq!(said(&rust), said(&ours), "{ours} {}", row.name);
        }
    }
    let long = rows.iter().find(|row| row.name == "ping-7609").unwrap();
    let mut copied = vec![];
    run("copy:received", long, 1, |bytes| copied = bytes.to_vec());
    run("ours:received", long, 1, |bytes| assert_eq!(bytes, copied));
    let mut replies = 0;
    run("ours:host", long, 3, |bytes| {
        assert_eq!(bytes, copied);
        replies += 1;
    });
    assert_eq!(replies, 3);
}

#[cfg(not(target_os = "none"))]
fn main() {
    let rows = rows();
    for word in std::env::args().skip(1) {
        match &word[..] {
            "--check" => check(&rows),
            "--jobs" => {
                for job in JOBS {
                    for row in &rows {
                        println!("{job}:{}", row.name);
                    }
                }
                println!("ours:host:ping-7609");
                println!("copy:received:ping-7609");
            }
            _ => {
                let (job, count) = word.split_once('=').expect("JOB=COUNT");
                let (job, name) = job.rsplit_once(':').expect("SIDE:WHAT:ROW");
                let row = rows.iter().find(|row| row.name == name).expect("a row");
                run(job, row, count.parse().expect("a count"), |bytes| {
                    black_box(bytes);
                });
            }
        }
    }
}
