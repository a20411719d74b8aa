//! Hosts on both interfaces of a key: what each has alone, and what each means to the other.
mod common;

use common::{Device, LENGTHS, ask, bytes, error, init, packet};
use snjofrask::{
    CHANNEL_BROADCAST, ChannelID, CtapHid, CtapHidCommand, CtapHidError, HidPacket,
    HidPacketIterator, Key, LARGEST_PAYLOAD, LAST_TIME_MS, Message, Processed, Refusal, Transport,
};

const MAIN: Transport = Transport::MainHid;
const VENDOR: Transport = Transport::VendorHid;
const BOTH: [Transport; 2] = [MAIN, VENDOR];

const ONE: ChannelID = [0, 0, 0, 1];
const TWO: ChannelID = [0, 0, 0, 2];
/// It is not allocated.
const THREE: ChannelID = [0, 0, 0, 3];

/// A vendor command that the keys here know.
const KNOWN: u8 = 64;

/// One interface of a key.
struct On<'a, 'b>(&'a mut Key<'b>, Transport);

impl Device for On<'_, '_> {
    fn process(&mut self, time_ms: u64, packet: &HidPacket) -> Result<Processed<'_>, Refusal> {
        self.0.process_hid_packet(time_ms, packet, self.1)
    }
}

/// A key with channels 1 and 2 on each interface.
fn with_channels<'b>(main: &'b mut [u8], vendor: &'b mut [u8], ctap1: bool) -> Key<'b> {
    let mut key = Key::new(main, vendor, ctap1, &[KNOWN]).unwrap();
    // WINK and CBOR, and without U2F no MSG
    let capabilities = if ctap1 { 5 } else { 13 };
    for cid in [ONE, TWO] {
        for transport in BOTH {
            let given = init(&mut On(&mut key, transport), 0, [cid[3]; 8]);
            assert_eq!(given, (cid, capabilities));
        }
    }
    key
}

fn other(transport: Transport) -> Transport {
    match transport {
        MAIN => VENDOR,
        VENDOR => MAIN,
    }
}

fn message(cid: ChannelID, cmd: CtapHidCommand, payload: &[u8]) -> Message<'_> {
    Message { cid, cmd, payload }
}

fn ping(cid: ChannelID) -> Message<'static> {
    message(cid, CtapHidCommand::Ping, &[])
}

fn lock(seconds: &[u8]) -> Message<'_> {
    message(ONE, CtapHidCommand::Lock, seconds)
}

/// The reply to a message, and none where there is none. It must not be refused.
fn reply(
    key: &mut Key,
    transport: Transport,
    time_ms: u64,
    message: Message,
) -> Option<(u8, Vec<u8>)> {
    ask(&mut On(key, transport), time_ms, message).unwrap()
}

#[track_caller]
fn must_serve(key: &mut Key, transport: Transport, time_ms: u64, message: Message) {
    let echoed = Some((message.cmd.number(), Vec::new()));
    assert_eq!(reply(key, transport, time_ms, message), echoed);
}

#[track_caller]
fn must_tell(
    key: &mut Key,
    transport: Transport,
    time_ms: u64,
    message: Message,
    wanted: CtapHidError,
) {
    let wanted = error(message.cid, wanted);
    assert_eq!(reply(key, transport, time_ms, message), wanted);
}

/// The packets that are sent for one. A request is sent back.
fn sent(key: &mut Key, transport: Transport, time_ms: u64, packet: &HidPacket) -> Vec<HidPacket> {
    match key.process_hid_packet(time_ms, packet, transport).unwrap() {
        Processed::Packets(packets) => packets.collect(),
        Processed::Request(request) => CtapHid::split_message(request).collect(),
    }
}

/// The packet of an error.
fn told(cid: ChannelID, error: CtapHidError) -> Vec<HidPacket> {
    CtapHid::split_message(CtapHid::error_message(cid, error)).collect()
}

fn locks(key: &Key, time_ms: u64) -> [bool; 2] {
    BOTH.map(|transport| key.has_channel_lock(transport, time_ms).unwrap())
}

/// A message on each interface, their packets in turn. Each is sent back when it is whole.
fn must_send_back(key: &mut Key, messages: [Message; 2]) {
    let mut packets = messages.map(CtapHid::split_message);
    while packets.iter().any(HidPacketIterator::has_data) {
        for (i, transport) in BOTH.into_iter().enumerate() {
            let Some(packet) = packets[i].next() else {
                continue;
            };
            let still_due = packets[i].len();
            let wanted: Vec<_> = match still_due {
                0 => CtapHid::split_message(messages[i]).collect(),
                _ => Vec::new(),
            };
            assert_eq!(sent(key, transport, 0, &packet), wanted);
            assert_eq!(usize::from(key.still_due(transport)), still_due);
        }
    }
}

#[test]
fn messages_on_both_at_once() {
    let (mut main, mut vendor) = ([0; LARGEST_PAYLOAD], [0; LARGEST_PAYLOAD]);
    let mut key = with_channels(&mut main, &mut vendor, true);
    let of_main = bytes(LARGEST_PAYLOAD);
    // no byte is the other's at its place
    let of_vendor: Vec<u8> = of_main.iter().map(|byte| !byte).collect();
    for (cid, cmd) in [
        (ONE, CtapHidCommand::Ping),
        (TWO, CtapHidCommand::Cbor),
        (ONE, CtapHidCommand::from(KNOWN)),
    ] {
        for main_len in LENGTHS {
            for vendor_len in LENGTHS {
                let on_main = message(ONE, CtapHidCommand::Msg, &of_main[..main_len]);
                let on_vendor = message(cid, cmd, &of_vendor[..vendor_len]);
                must_send_back(&mut key, [on_main, on_vendor]);
            }
        }
    }
}

#[test]
fn channels_of_each_are_its_own() {
    let (mut main, mut vendor) = ([0; 100], [0; 100]);
    for transport in BOTH {
        let mut key = with_channels(&mut main, &mut vendor, true);
        assert_eq!(init(&mut On(&mut key, transport), 0, [0; 8]).0, THREE);
        must_serve(&mut key, transport, 0, ping(THREE));
        let none = CtapHidError::InvalidChannel;
        must_tell(&mut key, other(transport), 0, ping(THREE), none);
    }
}

#[test]
fn maxima_of_each_are_its_own() {
    let (mut main, mut vendor) = ([0; 200], [0; 100]);
    let mut key = with_channels(&mut main, &mut vendor, true);
    let payload = &bytes(201)[..];
    for (transport, largest) in [(MAIN, 200), (VENDOR, 100)] {
        let of = |len: usize| message(ONE, CtapHidCommand::Ping, &payload[..len]);
        let echoed = Some((1, payload[..largest].to_vec()));
        assert_eq!(reply(&mut key, transport, 0, of(largest)), echoed);
        let first = CtapHid::split_message(of(largest + 1)).next().unwrap();
        let too_long = told(ONE, CtapHidError::InvalidLen);
        assert_eq!(sent(&mut key, transport, 0, &first), too_long);
    }
}

#[test]
fn a_message_runs_out_of_time_by_itself() {
    for slow in BOTH {
        let (mut main, mut vendor) = ([0; 300], [0; 300]);
        let mut key = with_channels(&mut main, &mut vendor, true);
        let nth = |index| packet(ONE, CtapHidCommand::Ping, 300, index);
        for transport in BOTH {
            assert!(sent(&mut key, transport, 0, &nth(0)).is_empty());
        }
        // the other one's packets are no sign of life
        for (time_ms, index) in [(60, 1), (99, 2)] {
            assert!(sent(&mut key, other(slow), time_ms, &nth(index)).is_empty());
        }
        assert_eq!(key.still_due(slow), 5);
        let too_late = told(ONE, CtapHidError::MsgTimeout);
        assert_eq!(sent(&mut key, slow, 100, &nth(1)), too_late);
        assert_eq!(key.still_due(slow), 0);
        assert!(sent(&mut key, other(slow), 198, &nth(3)).is_empty());
        assert_eq!(key.still_due(other(slow)), 2);
    }
}

#[test]
fn a_lock_shuts_the_other_interface() {
    for holder in BOTH {
        let (mut main, mut vendor) = ([0; 100], [0; 100]);
        let mut key = with_channels(&mut main, &mut vendor, true);
        let shut = other(holder);
        let busy = CtapHidError::ChannelBusy;
        must_serve(&mut key, holder, 10, lock(&[1]));
        for time_ms in [10, 1009] {
            assert_eq!(locks(&key, time_ms), BOTH.map(|side| side == holder));
            // the holder's channel goes on, and its number is nothing on the other one
            must_serve(&mut key, holder, time_ms, ping(ONE));
            must_tell(&mut key, holder, time_ms, ping(TWO), busy);
            let init = message(CHANNEL_BROADCAST, CtapHidCommand::Init, &[0; 8]);
            for message in [ping(ONE), ping(TWO), lock(&[1]), lock(&[0]), init] {
                must_tell(&mut key, shut, time_ms, message, busy);
            }
            let goes_on = packet(ONE, CtapHidCommand::Ping, 58, 1);
            assert_eq!(sent(&mut key, shut, time_ms, &goes_on), told(ONE, busy));
            let none = CtapHidError::InvalidChannel;
            must_tell(&mut key, shut, time_ms, ping(THREE), none);
        }
        // it is over, and now the other one may lock
        assert_eq!(locks(&key, 1010), [false, false]);
        must_serve(&mut key, shut, 1010, ping(ONE));
        must_serve(&mut key, shut, 1010, lock(&[10]));
        assert_eq!(locks(&key, 11_009), BOTH.map(|side| side == shut));
        must_tell(&mut key, holder, 11_009, ping(ONE), busy);
        // given up before its time
        must_serve(&mut key, shut, 11_009, lock(&[0]));
        assert_eq!(locks(&key, 11_009), [false, false]);
        must_serve(&mut key, holder, 11_009, ping(ONE));
    }
}

/// A lock that is taken while the other interface has a message on its way in, and given up.
#[test]
fn a_message_outlasts_the_others_lock() {
    for holder in BOTH {
        let (mut main, mut vendor) = ([0; 300], [0; 300]);
        let mut key = with_channels(&mut main, &mut vendor, true);
        let shut = other(holder);
        let message = message(TWO, CtapHidCommand::Cbor, &[7; 150]);
        let packets: Vec<_> = CtapHid::split_message(message).collect();
        assert!(sent(&mut key, shut, 0, &packets[0]).is_empty());
        must_serve(&mut key, holder, 1, lock(&[10]));
        let busy = told(TWO, CtapHidError::ChannelBusy);
        assert_eq!(sent(&mut key, shut, 50, &packets[1]), busy);
        assert_eq!(key.still_due(shut), 2);
        must_serve(&mut key, holder, 50, lock(&[0]));
        assert!(sent(&mut key, shut, 99, &packets[1]).is_empty());
        assert_eq!(sent(&mut key, shut, 99, &packets[2]), packets);
    }
}

const WINK: CtapHidCommand = CtapHidCommand::Wink;

#[test]
fn only_main_winks() {
    let (mut main, mut vendor) = ([0; 100], [0; 100]);
    let mut key = with_channels(&mut main, &mut vendor, true);
    for payload in [&[][..], &[0], &[0; 58]] {
        let wink = message(ONE, WINK, payload);
        must_tell(&mut key, VENDOR, 0, wink, CtapHidError::InvalidCmd);
        assert_eq!(key.should_wink(0), Ok(false));
    }
    must_serve(&mut key, MAIN, 0, message(ONE, WINK, &[]));
    assert_eq!(key.should_wink(4999), Ok(true));
    assert_eq!(key.should_wink(5000), Ok(false));
    let long = message(ONE, WINK, &[0]);
    must_tell(&mut key, MAIN, 0, long, CtapHidError::InvalidLen);
    assert_eq!(key.should_wink(0), Ok(false));
}

#[test]
fn nothing_on_vendor_ends_a_wink() {
    let (mut main, mut vendor) = ([0; 100], [0; 100]);
    let mut key = with_channels(&mut main, &mut vendor, true);
    must_serve(&mut key, MAIN, 0, message(ONE, WINK, &[]));
    let none = CtapHidError::InvalidCmd;
    for (cmd, payload, replied) in [
        (CtapHidCommand::Ping, &[7][..], Some((1, vec![7]))),
        (CtapHidCommand::Msg, &[7], Some((3, vec![7]))),
        (CtapHidCommand::Cbor, &[7], Some((16, vec![7]))),
        (CtapHidCommand::from(KNOWN), &[], Some((64, vec![]))),
        (WINK, &[], error(ONE, none)),
        (CtapHidCommand::Error, &[], error(ONE, none)),
        (CtapHidCommand::Cancel, &[], None),
        (CtapHidCommand::Lock, &[10], Some((4, vec![]))),
    ] {
        let message = message(ONE, cmd, payload);
        assert_eq!(reply(&mut key, VENDOR, 0, message), replied);
        assert_eq!(key.should_wink(4999), Ok(true), "{message:?}");
    }
    // the errors, under this lock
    let ping = |cid, index| packet(cid, CtapHidCommand::Ping, 58, index);
    for (time_ms, packet, wanted) in [
        (0, ping(TWO, 0), told(TWO, CtapHidError::ChannelBusy)),
        (0, ping(THREE, 0), told(THREE, CtapHidError::InvalidChannel)),
        (0, ping(ONE, 0), vec![]),
        (0, ping(ONE, 0), told(ONE, CtapHidError::InvalidSeq)),
        (0, ping(ONE, 0), vec![]),
        (100, ping(ONE, 1), told(ONE, CtapHidError::MsgTimeout)),
    ] {
        assert_eq!(sent(&mut key, VENDOR, time_ms, &packet), wanted);
        assert_eq!(key.should_wink(4999), Ok(true), "{wanted:?}");
    }
    assert_eq!(key.should_wink(5000), Ok(false));
}

#[test]
fn vendors_lock_ends_a_wink_when_main_is_told() {
    let (mut main, mut vendor) = ([0; 100], [0; 100]);
    let mut key = with_channels(&mut main, &mut vendor, true);
    must_serve(&mut key, MAIN, 0, message(ONE, WINK, &[]));
    must_serve(&mut key, VENDOR, 0, lock(&[10]));
    // this one gets no reply
    let of_three = packet(THREE, CtapHidCommand::Ping, 58, 1);
    assert!(sent(&mut key, MAIN, 0, &of_three).is_empty());
    assert_eq!(key.should_wink(0), Ok(true));
    let wink = message(ONE, WINK, &[]);
    must_tell(&mut key, MAIN, 0, wink, CtapHidError::ChannelBusy);
    assert_eq!(key.should_wink(0), Ok(false));
}

#[test]
fn both_have_one_last_time() {
    for first in BOTH {
        let (mut main, mut vendor) = ([0; 100], [0; 100]);
        let mut key = with_channels(&mut main, &mut vendor, true);
        must_serve(&mut key, first, 10, lock(&[1]));
        for transport in BOTH {
            for time_ms in [9, LAST_TIME_MS + 1] {
                let refused = ask(&mut On(&mut key, transport), time_ms, ping(ONE));
                assert_eq!(refused, Err(Refusal::Time));
                let refused = key.has_channel_lock(transport, time_ms);
                assert_eq!(refused, Err(Refusal::Time));
                assert_eq!(key.should_wink(time_ms), Err(Refusal::Time));
            }
        }
        // a question sets no time, and neither does what is refused
        assert_eq!(locks(&key, 1010), [false, false]);
        must_serve(&mut key, first, 10, ping(ONE));
        must_serve(&mut key, other(first), 1010, ping(ONE));
        let refused = ask(&mut On(&mut key, first), 1009, ping(ONE));
        assert_eq!(refused, Err(Refusal::Time));
        must_serve(&mut key, first, 1010, ping(ONE));
    }
}

/// It counts beyond 32 bits.
#[test]
fn time_is_long() {
    let late = 1 << 32;
    for first in BOTH {
        let (mut main, mut vendor) = ([0; 100], [0; 100]);
        let mut key = with_channels(&mut main, &mut vendor, true);
        must_serve(&mut key, MAIN, 0, message(ONE, WINK, &[]));
        must_serve(&mut key, VENDOR, 0, lock(&[1]));
        assert_eq!(key.should_wink(late), Ok(false));
        assert_eq!(locks(&key, late), [false, false]);
        must_serve(&mut key, first, late, lock(&[1]));
        assert_eq!(locks(&key, late + 999), BOTH.map(|side| side == first));
        for transport in BOTH {
            let refused = ask(&mut On(&mut key, transport), late - 1, ping(ONE));
            assert_eq!(refused, Err(Refusal::Time));
        }
    }
}

#[test]
fn without_u2f_msg_is_no_command_on_either() {
    let (mut main, mut vendor) = ([0; 100], [0; 100]);
    let mut key = with_channels(&mut main, &mut vendor, false);
    for transport in BOTH {
        for len in [0, 58] {
            let msg = message(ONE, CtapHidCommand::Msg, &[7; 58][..len]);
            must_tell(&mut key, transport, 0, msg, CtapHidError::InvalidCmd);
        }
        let cbor = message(ONE, CtapHidCommand::Cbor, &[]);
        must_serve(&mut key, transport, 0, cbor);
    }
}

#[test]
fn both_know_the_same_vendor_commands() {
    let (mut main, mut vendor) = ([0; 100], [0; 100]);
    let mut key = with_channels(&mut main, &mut vendor, true);
    for transport in BOTH {
        for number in CtapHidCommand::VENDOR_FIRST..=CtapHidCommand::VENDOR_LAST {
            let command = message(ONE, CtapHidCommand::from(number), &[]);
            if number == KNOWN {
                must_serve(&mut key, transport, 0, command);
            } else {
                must_tell(&mut key, transport, 0, command, CtapHidError::InvalidCmd);
            }
        }
    }
}

#[test]
fn set_up_is_refused() {
    let (mut main, mut vendor) = ([0; LARGEST_PAYLOAD + 1], [0; LARGEST_PAYLOAD + 1]);
    for (main_len, vendor_len, commands, wanted) in [
        (7610, 7609, &[][..], Some(Refusal::Maximum)),
        (7609, 7610, &[], Some(Refusal::Maximum)),
        (7610, 7610, &[63], Some(Refusal::Maximum)),
        (0, 7610, &[128], Some(Refusal::Maximum)),
        (7609, 7609, &[63], Some(Refusal::Vendor)),
        (0, 0, &[64, 128], Some(Refusal::Vendor)),
        (7609, 7609, &[127, 64, 127], None),
        (0, 0, &[], None),
    ] {
        let (main, vendor) = (&mut main[..main_len], &mut vendor[..vendor_len]);
        assert_eq!(Key::new(main, vendor, true, commands).err(), wanted);
    }
}
