//! The bench program, with OpenSK as the device. With `--runs`, as crates/replay reads
//! it: a line that begins with `=` sets up another device, by its maximum, U2F and count of channels.
//! What is allowed for is what diff allows for (diff/allowance.rs); how often it was is said to standard error.
#[path = "diff/allowance.rs"]
mod allowance;

use host::HostEnv;
use opensk::ctap::CtapState;
use opensk::ctap::hid::HidPacket;
use opensk::ctap::main_hid::MainHid;
use std::io::{BufRead, BufWriter, Write, stdin, stdout};

const U2F: bool = cfg!(feature = "ctap1");

struct Device {
    env: HostEnv,
    authenticator: CtapState<HostEnv>,
    hid: MainHid<HostEnv>,
    /// Steps that were allowed for.
    allowed: u64,
}

fn main() -> std::io::Result<()> {
    let runs = std::env::args().nth(1).is_some_and(|arg| arg == "--runs");
    let mut device = Device::new(7609, 0);
    let mut allowed = 0;
    let mut out = BufWriter::new(stdout().lock());
    for line in stdin().lock().split(b'\n') {
        let line = line?;
        match (runs, line.split_first()) {
            (true, Some((b'=', rest))) => {
                let (max, u2f, count) = read(rest).expect("a set-up");
                assert_eq!(u2f, U2F, "OpenSK is built one way only");
                let count = u32::from_be_bytes(count[..4].try_into().unwrap());
                allowed += device.allowed;
                device = Device::new(max as usize, count);
            }
            _ => match read(&line) {
                Some((time, disabled, packet)) => device.step(time, disabled, &packet, &mut out)?,
                None => writeln!(out, "line?")?,
            },
        }
    }
    eprintln!("allowed for: {} lines", allowed + device.allowed);
    out.flush()
}

impl Device {
    fn new(max: usize, count: u32) -> Self {
        let mut env = HostEnv::new(max);
        let authenticator = CtapState::new(&mut env);
        let mut hid = MainHid::default();
        hid.oracle_hid().oracle_set_allocated(count);
        Device {
            env,
            authenticator,
            hid,
            allowed: 0,
        }
    }

    fn step(
        &mut self,
        time: u64,
        disabled: bool,
        packet: &HidPacket,
        out: &mut impl Write,
    ) -> std::io::Result<()> {
        // the one refusal that a line can meet; OpenSK has none
        if time >= 1 << 48 || time < self.env.now.0 {
            return writeln!(out, "refused 4");
        }
        self.env.now.0 = time;
        let instead = allowance::instead(self.hid.oracle_hid(), &self.env, disabled, packet);
        self.allowed += instead.is_some() as u64;
        let replies = self.hid.process_hid_packet(
            &mut self.env,
            instead.as_ref().unwrap_or(packet),
            disabled,
            &mut self.authenticator,
        );
        if let Some((cmd, payload)) = self.authenticator.handed.pop() {
            let space = if payload.is_empty() { "" } else { " " };
            let (cid, cmd) = (hex(&packet[..4]), cmd as u8);
            return writeln!(out, "command {cid} {cmd:02x}{space}{}", hex(&payload));
        }
        let mut answered = false;
        for reply in replies {
            let len = reply.iter().rposition(|b| *b != 0).map_or(0, |at| at + 1);
            writeln!(out, "> {}", hex(&reply[..len.max(7)]))?;
            answered = true;
        }
        if answered {
            return Ok(());
        }
        writeln!(out, "-")
    }
}

/// Time, flag and packet of a line.
fn read(line: &[u8]) -> Option<(u64, bool, HidPacket)> {
    let fields: Vec<&[u8]> = line.split(|byte| *byte == b' ').collect();
    let &[time, flag, packet] = &fields[..] else {
        return None;
    };
    if !(1..=15).contains(&time.len()) || !time.iter().all(u8::is_ascii_digit) {
        return None;
    }
    let time = std::str::from_utf8(time).ok()?.parse().ok()?;
    let flag = match flag {
        b"0" => false,
        b"1" => true,
        _ => return None,
    };
    if !(1..=64).contains(&packet.len().div_ceil(2)) || packet.len() % 2 != 0 {
        return None;
    }
    let mut bytes = [0; 64];
    for (byte, digits) in bytes.iter_mut().zip(packet.chunks(2)) {
        *byte = nibble(digits[0])? << 4 | nibble(digits[1])?;
    }
    Some((time, flag, bytes))
}

fn nibble(digit: u8) -> Option<u8> {
    match digit {
        b'0'..=b'9' => Some(digit - b'0'),
        b'a'..=b'f' => Some(digit - b'a' + 10),
        _ => None,
    }
}

fn hex(bytes: &[u8]) -> String {
    bytes.iter().map(|byte| format!("{byte:02x}")).collect()
}
