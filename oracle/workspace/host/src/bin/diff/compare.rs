//! What OpenSK has answered, and the state that it is in, against ours: for each of the machines that are run side by side.
use crate::lent::Lent;
use crate::ours::{self, ECHO, MESSAGE, NOTHING, Outcome, REPLY};
use host::{HostEnv, Timer};
use opensk::ctap::hid::{CtapHid, CtapHidCommand, HidPacket, HidPacketIterator};

/// OpenSK's CTAP2_ERR_VENDOR_INTERNAL_ERROR; a setting on our side.
const INTERNAL_ERROR: u8 = 0xf2;

pub const LAST_TIME: u64 = (1 << 48) - 1;

/// Whether OpenSK's outer layer is built with U2F.
pub const U2F: bool = cfg!(feature = "ctap1");

macro_rules! same {
    ($what:expr, $wanted:expr, $ours:expr) => {
        match (&$wanted, &$ours) {
            (wanted, ours) => {
                if wanted != ours {
                    let what = $what;
                    return Err(format!(
                        "{what}: wanted {wanted:02x?}, ours has {ours:02x?}"
                    ));
                }
            }
        }
    };
}
pub(crate) use same;

/// Where the payload of our answer stands.
pub fn payload<'a>(
    name: &str,
    outcome: &Outcome,
    message: &'a Lent,
    reply: &'a Lent,
) -> Result<Option<&'a [u8]>, String> {
    match outcome.kind {
        NOTHING => Ok(None),
        MESSAGE | ECHO => Ok(Some(message.front(outcome.len))),
        REPLY => Ok(Some(reply.front(outcome.len))),
        _ => Err(format!("{name}: ours answers {outcome:?}")),
    }
}

/// The device's answer: what OpenSK has handed to the authenticator, which answers `reply`, and all packets.
pub fn answer(
    opensk: HidPacketIterator,
    handed: &[(CtapHidCommand, Vec<u8>)],
    reply: &[u8],
    ours: &Outcome,
    payload: Option<&[u8]>,
    fault: &str,
) -> Result<(), String> {
    let mut payload = payload.map(<[u8]>::to_vec);
    let mut our_handed = vec![];
    if ours.kind == MESSAGE {
        // the caller's part: it asks the authenticator, and adds the status word to a U2F reply
        let asked = payload.replace(reply.to_vec()).unwrap();
        our_handed.push((CtapHidCommand::from(ours.cmd), asked));
        if ours.cmd == 3 {
            payload.as_mut().unwrap().extend([0x90, 0]);
        }
    }
    same!("handed over", handed, our_handed);
    match payload {
        None => {
            same!("has_data", opensk.has_data(), false);
            same!(
                "packets",
                opensk.collect::<Vec<_>>(),
                Vec::<HidPacket>::new()
            );
            Ok(())
        }
        Some(payload) => packets(opensk, ours.cid, ours.cmd, &payload, fault),
    }
}

/// OpenSK's packets against ours by index, has_data against our count, and the end.
pub fn packets(
    mut opensk: HidPacketIterator,
    cid: u32,
    cmd: u8,
    payload: &[u8],
    fault: &str,
) -> Result<(), String> {
    let len = if payload.len() > 7609 {
        1
    } else {
        payload.len()
    };
    let count = ours::packet_count(len);
    same!("kind of a count", ours::COUNT, count.kind);
    for index in 0.. {
        let mut packet = [0x5a; 64];
        let internal_error = match fault {
            "split-long-at-7610" if payload.len() == 7610 => 0,
            _ => INTERNAL_ERROR,
        };
        let number = ours::split_message(cid, cmd, payload, internal_error, index, &mut packet);
        if fault == "sender-number-1" && index > 0 && number == 0 {
            packet[4] += 1;
        }
        if fault == "sender-stale-bytes" && index + 1 == count.len && len == 58 {
            packet[63] = 0x5a;
        }
        same!("has_data", opensk.has_data(), index < count.len);
        match opensk.next() {
            Some(wanted) => {
                same!("writing", 0, number);
                same!(format!("packet {index}"), wanted, packet);
            }
            None => {
                same!("writing past the last", 6, number);
                same!("a packet not written", [0x5a; 64], packet);
                return Ok(());
            }
        }
    }
    unreachable!()
}

/// Channels, lock and transaction after a step at a time, and the bytes taken. Tells the end of a lock that runs.
pub fn state(
    name: &str,
    hid: &CtapHid<HostEnv>,
    ours: &ours::CtapHid,
    message: &Lent,
    time: u64,
) -> Result<Option<u64>, String> {
    let peek = hid.oracle_peek();
    same!(
        format!("{name}: count"),
        peek.allocated_cids,
        ours.allocated
    );
    let Timer(until) = peek.lock_timer;
    let lock = peek
        .locked_cid
        .map(|cid| (u32::from_be_bytes(cid), until.unwrap()))
        .filter(|(_, until)| time < *until);
    let our_lock = Some((ours.locked, ours.lock)).filter(|(_, until)| time < *until);
    same!(format!("{name}: lock"), lock, our_lock);
    let transaction = peek.transaction.as_ref().map(|x| {
        let taken = x.payload.len();
        (
            u32::from_be_bytes(x.cid),
            x.cmd as u16,
            x.seq as u16,
            taken as u32,
            (taken + x.remaining_payload_len) as u32,
            x.timer.0.unwrap(),
        )
    });
    let a = &ours.assembler;
    let our_transaction = (a.len > 0).then_some((a.cid, a.cmd, a.seq, a.taken, a.len, a.deadline));
    same!(format!("{name}: transaction"), transaction, our_transaction);
    // OpenSK counts bytes; due are as few continuations as hold the missing ones
    let missing = peek.transaction.as_ref().map(|x| x.remaining_payload_len);
    let due = missing.unwrap_or(0).div_ceil(59);
    same!(format!("{name}: still due"), due, ours.still_due as usize);
    // of one that is over, ours no longer has them
    if let Some(x) = peek.transaction.filter(|x| x.timer.0 > Some(time)) {
        same!(
            format!("{name}: bytes taken"),
            &x.payload[..],
            message.front(x.payload.len())
        );
    }
    Ok(lock.map(|(_, until)| until))
}
