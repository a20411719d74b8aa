//! A pair of pipes for each interface, and the clock by which packets come.
use crate::ends::Ends;
use snjofrask::HidPacket;
use std::fs::File;
use std::io::{self, Read, Write};
use std::sync::mpsc::{self, Receiver, RecvTimeoutError, Sender};
use std::sync::{Arc, Mutex};
use std::thread;
use std::time::Instant;

/// A packet, on which interface it came, and when.
pub struct Arrival {
    pub interface: u32,
    pub time_ms: u64,
    pub packet: HidPacket,
}

/// What came until a time.
pub enum Received {
    Packet(Arrival),
    Nothing,
    EndOfInput,
}

pub struct Pipes {
    start: Instant,
    arrivals: Receiver<io::Result<Arrival>>,
    outputs: Vec<File>,
}

impl Pipes {
    /// Those of each interface, which are numbered from 0 on. The packets of each are read by a thread of its own, so that one can
    /// wait for all of them and for a time.
    pub fn open(interfaces: Vec<Ends>) -> Pipes {
        let (sender, arrivals) = mpsc::channel();
        let start = Instant::now();
        let queue = Queue {
            start,
            sender: Arc::new(Mutex::new(sender)),
        };
        let mut outputs = Vec::new();
        for (interface, ends) in (0..).zip(interfaces) {
            let queue = queue.clone();
            thread::spawn(move || queue.fill(interface, ends.input));
            outputs.push(ends.output);
        }
        Pipes {
            start,
            arrivals,
            outputs,
        }
    }

    pub fn now_ms(&self) -> u64 {
        milliseconds_since(self.start)
    }

    /// The next packet, and none at the end of all input.
    pub fn receive(&self) -> io::Result<Option<Arrival>> {
        self.arrivals.recv().ok().transpose()
    }

    /// A packet that is there already is taken, though the time be past.
    pub fn receive_until(&self, until: Instant) -> io::Result<Received> {
        let timeout = until.saturating_duration_since(Instant::now());
        match self.arrivals.recv_timeout(timeout) {
            Ok(arrival) => Ok(Received::Packet(arrival?)),
            Err(RecvTimeoutError::Timeout) => Ok(Received::Nothing),
            Err(RecvTimeoutError::Disconnected) => Ok(Received::EndOfInput),
        }
    }

    pub fn send(&self, packet: &HidPacket, interface: u32) -> io::Result<()> {
        (&self.outputs[interface as usize]).write_all(packet)
    }
}

/// The arrivals of all interfaces, in the order of their times.
#[derive(Clone)]
struct Queue {
    start: Instant,
    sender: Arc<Mutex<Sender<io::Result<Arrival>>>>,
}

impl Queue {
    /// Adds what comes, until input ends or fails.
    fn fill(&self, interface: u32, mut input: File) {
        while let Some(read) = read_packet(&mut input).transpose() {
            let failed = read.is_err();
            if self.add(interface, read).is_none() || failed {
                return;
            }
        }
    }

    /// The time is taken under the lock: else a packet could be queued behind a later one of the other interface, and the device
    /// refuses a time that goes back.
    fn add(&self, interface: u32, read: io::Result<HidPacket>) -> Option<()> {
        let sender = self.sender.lock().ok()?;
        let time_ms = milliseconds_since(self.start);
        let arrival = read.map(|packet| Arrival {
            interface,
            time_ms,
            packet,
        });
        sender.send(arrival).ok()
    }
}

fn milliseconds_since(start: Instant) -> u64 {
    start.elapsed().as_millis() as u64
}

fn read_packet(input: &mut impl Read) -> io::Result<Option<HidPacket>> {
    let mut packet = [0; 64];
    let mut taken = 0;
    while taken < packet.len() {
        match input.read(&mut packet[taken..]) {
            Ok(0) if taken == 0 => return Ok(None),
            Ok(0) => return Err(io::Error::other("input ends inside a packet")),
            Ok(count) => taken += count,
            Err(error) if error.kind() == io::ErrorKind::Interrupted => {}
            Err(error) => return Err(error),
        }
    }
    Ok(Some(packet))
}
