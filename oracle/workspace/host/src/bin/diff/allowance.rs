//! What is allowed for: the one place where OpenSK is known to answer otherwise than ours (C-16; docs/DIFFERENCES.md,
//! entry 21). To a first packet with a command that nobody knows, which would begin a transaction, ours says InvalidCmd at
//! once. OpenSK collects the whole message before it says so, or says InvalidLen where too much is declared. So there it is
//! given that very packet with its declared length set to 0: a message that is whole at once, which it answers InvalidCmd
//! and forgets. All else, what comes after that packet too, it is given as it is.
use host::{HostEnv, Timer};
use opensk::ctap::hid::{CtapHid, HidPacket};

/// The commands that OpenSK answers otherwise than by InvalidCmd. Of the vendor's it knows none.
const KNOWN: [u8; 7] = [1, 3, 4, 6, 8, 16, 17];

/// What this transport of OpenSK's is given in the packet's place, where that is needed: as the packet, the flag and its own
/// state have it.
pub fn instead(
    hid: &CtapHid<HostEnv>,
    env: &HostEnv,
    disabled: bool,
    packet: &HidPacket,
) -> Option<HidPacket> {
    let is_unknown = packet[4] >= 128 && !KNOWN.contains(&(packet[4] & 127));
    // a message of one packet that isn't too long is whole at once, and is answered InvalidCmd as it is
    let declared = u16::from_be_bytes([packet[5], packet[6]]) as usize;
    let is_short = declared <= 57 && declared <= env.customization.max_msg_size;
    if !is_unknown || is_short {
        return None;
    }
    let runs = |timer: Timer| timer.0.is_some_and(|end| env.now.0 < end);
    let state = hid.oracle_peek();
    // broadcast, for INIT alone, is past every count
    let cid = u32::from_be_bytes(packet[..4].try_into().unwrap());
    let is_valid = (1..=state.allocated_cids).contains(&cid);
    let holder = state.locked_cid.filter(|_| runs(state.lock_timer));
    let is_shut_out = holder.is_some_and(|holder| holder != packet[..4]);
    let is_on = state.transaction.is_some_and(|x| runs(x.timer));
    if !is_valid || disabled || is_shut_out || is_on {
        return None;
    }
    let mut given = *packet;
    given[5..7].fill(0);
    Some(given)
}
