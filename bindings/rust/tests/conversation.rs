//! A host and a device, both of this crate, over packets: every length of message that stands at a boundary.
mod common;

use common::{LENGTHS, ask, bytes, error, init, packet};
use snjofrask::{
    CHANNEL_BROADCAST, ChannelID, Collection, CtapHid, CtapHidCommand, CtapHidError, HidPacket,
    HidPacketIterator, LARGEST_PAYLOAD, LAST_TIME_MS, MainHid, Message, Parsed, Processed,
    Progress, Refusal, init_reply,
};

/// The numbers as docs/RULES.md has them.
const COMMANDS: [(u8, CtapHidCommand); 9] = [
    (3, CtapHidCommand::Msg),
    (16, CtapHidCommand::Cbor),
    (6, CtapHidCommand::Init),
    (1, CtapHidCommand::Ping),
    (17, CtapHidCommand::Cancel),
    (63, CtapHidCommand::Error),
    (59, CtapHidCommand::Keepalive),
    (8, CtapHidCommand::Wink),
    (4, CtapHidCommand::Lock),
];

#[test]
fn every_number_is_read() {
    for number in 0..=u8::MAX {
        let cmd = CtapHidCommand::from(number);
        if let Some((_, named)) = COMMANDS.iter().find(|(n, _)| *n == number) {
            assert_eq!((cmd, cmd.number()), (*named, number));
        } else if (64..=127).contains(&number) {
            assert!(matches!(cmd, CtapHidCommand::Vendor(vendor) if vendor.number() == number));
            assert_eq!(cmd.number(), number);
        } else {
            assert_eq!(cmd, CtapHidCommand::Error, "{number}");
        }
    }
}

#[test]
fn every_message_comes_back() {
    let mut buffer = [0; LARGEST_PAYLOAD];
    let mut device = MainHid::new(&mut buffer, true, &[]).unwrap();
    assert_eq!(init(&mut device, 0, [1; 8]).0, [0, 0, 0, 1]);
    let (cid, _) = init(&mut device, 0, [2; 8]);
    assert_eq!(cid, [0, 0, 0, 2]);
    let bytes = bytes(LARGEST_PAYLOAD);
    for len in LENGTHS {
        let payload = &bytes[..len];
        let reversed: Vec<u8> = payload.iter().rev().copied().collect();
        for (cmd, reply) in [
            (CtapHidCommand::Ping, payload),
            (CtapHidCommand::Msg, &reversed),
            (CtapHidCommand::Cbor, &reversed),
        ] {
            let message = Message { cid, cmd, payload };
            let packets = HidPacketIterator::new(message).unwrap();
            assert_eq!(packets.len(), 1 + (len + 1) / 59);
            assert_eq!(
                ask(&mut device, 0, message),
                Ok(Some((cmd.number(), reply.to_vec())))
            );
        }
    }
}

#[test]
fn errors_are_told() {
    let mut buffer = [0; 100];
    let mut device = MainHid::new(&mut buffer, false, &[]).unwrap();
    let capabilities =
        CtapHid::CAPABILITY_WINK | CtapHid::CAPABILITY_CBOR | CtapHid::CAPABILITY_NMSG;
    assert_eq!(init(&mut device, 0, [0; 8]).1, capabilities);
    let (cid, _) = init(&mut device, 0, [0; 8]);
    for (cid, cmd, payload, wanted) in [
        (
            cid,
            CtapHidCommand::Msg,
            &[0; 8][..],
            CtapHidError::InvalidCmd,
        ),
        (
            cid,
            CtapHidCommand::Keepalive,
            &[],
            CtapHidError::InvalidCmd,
        ),
        (cid, CtapHidCommand::Lock, &[11], CtapHidError::InvalidPar),
        (cid, CtapHidCommand::Lock, &[], CtapHidError::InvalidLen),
        (cid, CtapHidCommand::Wink, &[0], CtapHidError::InvalidLen),
        (
            [0, 0, 0, 3],
            CtapHidCommand::Ping,
            &[],
            CtapHidError::InvalidChannel,
        ),
        (
            CHANNEL_BROADCAST,
            CtapHidCommand::Ping,
            &[],
            CtapHidError::InvalidChannel,
        ),
    ] {
        let message = Message { cid, cmd, payload };
        assert_eq!(ask(&mut device, 0, message), Ok(error(cid, wanted)));
    }

    // a lock: another channel waits, and so does everyone while the transport is disabled
    let lock = Message {
        cid,
        cmd: CtapHidCommand::Lock,
        payload: &[1],
    };
    let ping = Message {
        cid: [0, 0, 0, 1],
        cmd: CtapHidCommand::Ping,
        payload: &[],
    };
    assert_eq!(ask(&mut device, 0, lock), Ok(Some((4, vec![]))));
    assert_eq!(device.has_channel_lock(0), Ok(true));
    assert_eq!(
        ask(&mut device, 999, ping),
        Ok(error(ping.cid, CtapHidError::ChannelBusy))
    );
    assert_eq!(ask(&mut device, 1000, ping), Ok(Some((1, vec![]))));
    let packet = HidPacketIterator::new(ping).unwrap().next().unwrap();
    let Ok(Processed::Packets(mut packets)) = device.process_hid_packet(1000, &packet, true) else {
        panic!();
    };
    assert_eq!(packets.next(), CtapHid::busy_error(ping.cid).next());
    assert_eq!(packets.next(), None);
}

#[test]
fn longer_replies_to_init() {
    let bytes = bytes(LARGEST_PAYLOAD + 1);
    let cmd = CtapHidCommand::Init;
    for len in [0, 16, LARGEST_PAYLOAD + 1] {
        assert_eq!(
            init_reply(cmd.number(), &bytes[..len]),
            Err(Refusal::NotInit)
        );
    }
    for len in [17, 18, 19, 256 + 17, LARGEST_PAYLOAD] {
        let payload = &bytes[..len];
        let reply = init_reply(cmd.number(), payload).unwrap();
        assert_eq!(reply.nonce, [0, 1, 2, 3, 4, 5, 6, 7]);
        assert_eq!((reply.cid, reply.capabilities), ([8, 9, 10, 11], 16));
        assert_eq!(reply.rest.as_ptr_range(), payload[17..].as_ptr_range());
    }

    // of 19 bytes, in packets
    let cid = CHANNEL_BROADCAST;
    let mut buffer = [0; 19];
    let mut collection = Collection::new(&mut buffer);
    let mut packets = CtapHid::split_message(Message {
        cid,
        cmd,
        payload: &bytes[..19],
    });
    let packet = packets.next().unwrap();
    let Ok(Progress::Reply { cmd, payload }) = collection.take_packet(cid, &packet) else {
        panic!();
    };
    assert_eq!(init_reply(cmd, payload).unwrap().rest, [17, 18]);
}

/// The numbers of the vendor commands.
fn vendor() -> impl Iterator<Item = u8> {
    CtapHidCommand::VENDOR_FIRST..=CtapHidCommand::VENDOR_LAST
}

#[test]
fn vendor_commands_come_back() {
    // in any order, and one of them twice
    let known = [127, 64, 100, 64];
    let mut buffer = [0; LARGEST_PAYLOAD];
    let mut device = MainHid::new(&mut buffer, true, &known).unwrap();
    let (cid, _) = init(&mut device, 0, [0; 8]);
    let bytes = bytes(LARGEST_PAYLOAD);
    for number in vendor() {
        let cmd = CtapHidCommand::from(number);
        assert!(matches!(cmd, CtapHidCommand::Vendor(vendor) if vendor.number() == number));
        for len in LENGTHS {
            let payload = &bytes[..len];
            let reply = if known.contains(&number) {
                Some((number, payload.iter().rev().copied().collect()))
            } else {
                error(cid, CtapHidError::InvalidCmd)
            };
            let message = Message { cid, cmd, payload };
            assert_eq!(
                ask(&mut device, 0, message),
                Ok(reply),
                "{number}, {len} bytes"
            );
        }
    }

    // on their own channel, which the broadcast one isn't
    let cid = CHANNEL_BROADCAST;
    let cmd = CtapHidCommand::from(64);
    let message = Message {
        cid,
        cmd,
        payload: &[],
    };
    assert_eq!(
        ask(&mut device, 0, message),
        Ok(error(cid, CtapHidError::InvalidChannel))
    );
}

#[test]
fn no_vendor_commands() {
    let mut buffer = [0; 100];
    let mut device = MainHid::new(&mut buffer, true, &[]).unwrap();
    let (cid, _) = init(&mut device, 0, [0; 8]);
    for number in vendor() {
        for payload in [&[][..], &[0; 57], &[0; 58]] {
            let cmd = CtapHidCommand::from(number);
            let message = Message { cid, cmd, payload };
            assert_eq!(
                ask(&mut device, 0, message),
                Ok(error(cid, CtapHidError::InvalidCmd))
            );
        }
    }
}

#[test]
fn a_transport_with_vendor_commands() {
    let mut buffer = [0; 100];
    let mut hid = CtapHid::new(&mut buffer, true, &[64]).unwrap();
    let init = Message {
        cid: CHANNEL_BROADCAST,
        cmd: CtapHidCommand::Init,
        payload: &[0; 8],
    };
    let init = CtapHid::split_message(init).next().unwrap();
    assert!(matches!(
        hid.parse_packet(0, &init, false),
        Ok(Parsed::Reply(_))
    ));
    let known = Message {
        cid: [0, 0, 0, 1],
        cmd: CtapHidCommand::from(64),
        payload: &[7; 58],
    };
    let unknown = Message {
        cmd: CtapHidCommand::from(65),
        ..known
    };
    let told = CtapHid::error_message(known.cid, CtapHidError::InvalidCmd);
    // the one is handed out when it is whole, the other told so at its first packet
    for (message, answers) in [
        (known, [Parsed::Nothing, Parsed::Message(known)]),
        (unknown, [Parsed::Reply(told), Parsed::Nothing]),
    ] {
        let packets: Vec<_> = CtapHid::split_message(message).collect();
        assert_eq!(packets.len(), 2);
        for (packet, answer) in packets.iter().zip(answers) {
            assert_eq!(hid.parse_packet(0, packet, false), Ok(answer));
        }
    }
}

#[test]
fn a_vendor_command_ends_a_wink() {
    let mut buffer = [0; 100];
    let mut device = MainHid::new(&mut buffer, true, &[64]).unwrap();
    let (cid, _) = init(&mut device, 0, [0; 8]);
    let wink = Message {
        cid,
        cmd: CtapHidCommand::Wink,
        payload: &[],
    };
    for number in [64, 65] {
        assert_eq!(ask(&mut device, 0, wink), Ok(Some((8, vec![]))));
        let cmd = CtapHidCommand::from(number);
        let message = Message {
            cid,
            cmd,
            payload: &[0; 58],
        };
        let packets: Vec<_> = HidPacketIterator::new(message).unwrap().collect();
        // when it is whole, or at its first packet where it isn't known
        device.process_hid_packet(0, &packets[0], false).unwrap();
        assert_eq!(device.should_wink(0), Ok(number == 64));
        let is_handed_out = matches!(
            device.process_hid_packet(0, &packets[1], false),
            Ok(Processed::Request(request)) if request == message
        );
        assert_eq!(is_handed_out, number == 64);
        assert_eq!(device.should_wink(0), Ok(false));
    }
}

#[test]
fn a_message_out_of_order() {
    let mut buffer = [0; 200];
    let mut device = MainHid::new(&mut buffer, true, &[]).unwrap();
    let (cid, _) = init(&mut device, 0, [0; 8]);
    let message = Message {
        cid,
        cmd: CtapHidCommand::Ping,
        payload: &[0; 200],
    };
    let packets: Vec<_> = HidPacketIterator::new(message).unwrap().collect();
    assert_eq!(packets.len(), 4);
    let mut sent = Vec::new();
    for at in [0, 2] {
        let Ok(Processed::Packets(packets)) = device.process_hid_packet(0, &packets[at], false)
        else {
            panic!();
        };
        sent.extend(packets);
    }
    let told = CtapHid::split_message(CtapHid::error_message(cid, CtapHidError::InvalidSeq));
    assert_eq!(sent, told.collect::<Vec<_>>());
}

/// How many continuations a message of so many bytes has.
const CONTINUATIONS: [(usize, u16); 9] = [
    (0, 0),
    (57, 0),
    (58, 1),
    (116, 1),
    (117, 2),
    (300, 5),
    (7550, 127),
    (7551, 128),
    (7609, 128),
];

const ONE: ChannelID = [0, 0, 0, 1];
const TWO: ChannelID = [0, 0, 0, 2];
/// It is not allocated.
const THREE: ChannelID = [0, 0, 0, 3];

const BUSY: Option<u8> = Some(CtapHidError::ChannelBusy as u8);
const NO_CHANNEL: Option<u8> = Some(CtapHidError::InvalidChannel as u8);
const OUT_OF_ORDER: Option<u8> = Some(CtapHidError::InvalidSeq as u8);
const TOO_LATE: Option<u8> = Some(CtapHidError::MsgTimeout as u8);

fn ping(cid: ChannelID, len: usize, index: usize) -> HidPacket {
    packet(cid, CtapHidCommand::Ping, len, index)
}

/// A device with channels 1 and 2.
fn with_two_channels(buffer: &mut [u8]) -> MainHid<'_> {
    let mut device = MainHid::new(buffer, true, &[]).unwrap();
    assert_eq!(device.still_due(), 0);
    assert_eq!(init(&mut device, 0, [1; 8]).0, ONE);
    assert_eq!(init(&mut device, 0, [2; 8]).0, TWO);
    assert_eq!(device.still_due(), 0);
    device
}

/// The error that a packet is told, if it is told one, and how many packets are still due then.
fn told(
    device: &mut MainHid,
    time_ms: u64,
    is_transport_disabled: bool,
    packet: HidPacket,
) -> (Option<u8>, u16) {
    let processed = device.process_hid_packet(time_ms, &packet, is_transport_disabled);
    let Ok(Processed::Packets(mut packets)) = processed else {
        panic!("{processed:?}");
    };
    let error = packets.next().filter(|reply| reply[4] == 0xBF);
    (error.map(|reply| reply[7]), device.still_due())
}

#[test]
fn packets_still_due_go_down() {
    let mut buffer = [0; LARGEST_PAYLOAD];
    let mut device = with_two_channels(&mut buffer);
    for (len, continuations) in CONTINUATIONS {
        for (index, still_due) in (0..=continuations).rev().enumerate() {
            let wanted = (None, still_due);
            let ping = ping(TWO, len, index);
            assert_eq!(told(&mut device, 0, false, ping), wanted, "{len} bytes");
        }
    }
}

#[test]
fn packets_still_due_to_a_transport() {
    let mut buffer = [0; LARGEST_PAYLOAD];
    let mut hid = CtapHid::new(&mut buffer, true, &[]).unwrap();
    assert_eq!(hid.still_due(), 0);
    let mut due_after = |time_ms, disabled, packet| {
        hid.parse_packet(time_ms, &packet, disabled).unwrap();
        hid.still_due()
    };
    let init = packet(CHANNEL_BROADCAST, CtapHidCommand::Init, 8, 0);
    assert_eq!(due_after(0, false, init), 0);
    for (len, continuations) in CONTINUATIONS {
        for (index, still_due) in (0..=continuations).rev().enumerate() {
            let ping = ping(ONE, len, index);
            assert_eq!(due_after(0, false, ping), still_due, "{len} bytes");
        }
    }

    // dropped by a wrong number
    assert_eq!(due_after(0, false, ping(ONE, 300, 0)), 5);
    assert_eq!(due_after(0, false, ping(ONE, 300, 2)), 0);
    // its time is over, which only a packet that is heard finds
    assert_eq!(due_after(0, false, ping(ONE, 300, 0)), 5);
    assert_eq!(due_after(100, true, ping(ONE, 300, 1)), 5);
    assert_eq!(due_after(100, false, ping(TWO, 300, 1)), 5);
    assert_eq!(due_after(100, false, ping(ONE, 300, 1)), 0);
}

#[test]
fn packets_still_due_while_others_are_told() {
    let mut buffer = [0; 300];
    let mut device = with_two_channels(&mut buffer);
    let init = packet(CHANNEL_BROADCAST, CtapHidCommand::Init, 8, 0);
    assert_eq!(told(&mut device, 0, false, ping(ONE, 300, 0)), (None, 5));
    for (disabled, packet, error) in [
        (false, ping(TWO, 58, 0), BUSY),
        (false, ping(TWO, 58, 1), BUSY),
        (false, init, BUSY),
        (false, ping(THREE, 58, 0), NO_CHANNEL),
        (false, ping(THREE, 58, 1), None),
        (true, ping(TWO, 58, 0), BUSY),
        (true, ping(ONE, 300, 1), BUSY),
        (true, ping(ONE, 300, 3), BUSY),
    ] {
        assert_eq!(told(&mut device, 99, disabled, packet), (error, 5));
    }
    // nor does a packet alter it that is refused
    let refused = device.process_hid_packet(98, &ping(ONE, 300, 1), false);
    assert_eq!(refused.err(), Some(Refusal::Time));
    assert_eq!(device.still_due(), 5);
    assert_eq!(told(&mut device, 99, false, ping(ONE, 300, 1)), (None, 4));
}

#[test]
fn packets_still_due_of_a_message_that_is_dropped() {
    for (packet, wanted) in [
        (ping(ONE, 300, 1), (OUT_OF_ORDER, 0)),
        (ping(ONE, 300, 3), (OUT_OF_ORDER, 0)),
        (ping(ONE, 300, 0), (OUT_OF_ORDER, 0)),
        (packet(ONE, CtapHidCommand::Cancel, 0, 0), (OUT_OF_ORDER, 0)),
        // this one begins anew
        (packet(ONE, CtapHidCommand::Init, 8, 0), (None, 0)),
        (packet(ONE, CtapHidCommand::Init, 117, 0), (None, 2)),
    ] {
        let mut buffer = [0; 300];
        let mut device = with_two_channels(&mut buffer);
        assert_eq!(told(&mut device, 0, false, ping(ONE, 300, 0)), (None, 5));
        assert_eq!(told(&mut device, 0, false, ping(ONE, 300, 1)), (None, 4));
        assert_eq!(told(&mut device, 0, false, packet), wanted);
    }
}

#[test]
fn packets_still_due_past_the_deadline() {
    for (packet, wanted) in [
        (ping(ONE, 300, 1), (TOO_LATE, 0)),
        (ping(ONE, 117, 0), (None, 2)),
        (ping(TWO, 300, 1), (None, 0)),
        (ping(TWO, 57, 0), (None, 0)),
        (ping(TWO, 58, 0), (None, 1)),
    ] {
        let mut buffer = [0; 300];
        let mut device = with_two_channels(&mut buffer);
        assert_eq!(told(&mut device, 0, false, ping(ONE, 300, 0)), (None, 5));
        // none of these is heard
        assert_eq!(told(&mut device, 100, true, packet), (BUSY, 5));
        let of_three = ping(THREE, 300, 0);
        assert_eq!(told(&mut device, 100, false, of_three), (NO_CHANNEL, 5));
        assert_eq!(device.has_channel_lock(200), Ok(false));
        assert_eq!(device.should_wink(200), Ok(false));
        assert_eq!(device.still_due(), 5);
        assert_eq!(told(&mut device, 200, false, packet), wanted);
    }
}

#[test]
fn packets_still_due_of_the_channel_with_the_lock() {
    let mut buffer = [0; 300];
    let mut device = with_two_channels(&mut buffer);
    let lock = Message {
        cid: TWO,
        cmd: CtapHidCommand::Lock,
        payload: &[10],
    };
    assert_eq!(ask(&mut device, 0, lock), Ok(Some((4, vec![]))));
    assert_eq!(told(&mut device, 0, false, ping(TWO, 300, 0)), (None, 5));
    for time_ms in [0, 99, 100, 9999] {
        let of_one = ping(ONE, 58, 0);
        assert_eq!(told(&mut device, time_ms, false, of_one), (BUSY, 5));
    }
    let goes_on = ping(TWO, 300, 1);
    assert_eq!(told(&mut device, 9999, false, goes_on), (TOO_LATE, 0));
}

#[test]
fn refusals() {
    let mut buffer = [0; LARGEST_PAYLOAD + 1];
    assert_eq!(
        MainHid::new(&mut buffer, true, &[]).err(),
        Some(Refusal::Maximum)
    );
    // of a list, one that isn't the vendor's; a buffer that is too long comes first
    for vendor in [&[63][..], &[128], &[0], &[255], &[64, 127, 63], &[63, 64]] {
        for (len, wanted) in [
            (LARGEST_PAYLOAD + 1, Refusal::Maximum),
            (LARGEST_PAYLOAD, Refusal::Vendor),
            (0, Refusal::Vendor),
        ] {
            let of_device = MainHid::new(&mut buffer[..len], true, vendor).err();
            assert_eq!(of_device, Some(wanted), "{vendor:?}");
            let of_transport = CtapHid::new(&mut buffer[..len], true, vendor).err();
            assert_eq!(of_transport, Some(wanted), "{vendor:?}");
        }
    }
    assert_eq!(Refusal::Vendor as u8, 13);
    let mut device = MainHid::new(&mut buffer[..57], true, &[]).unwrap();
    let (cid, _) = init(&mut device, 7, [0; 8]);
    let ping = Message {
        cid,
        cmd: CtapHidCommand::Ping,
        payload: &[],
    };
    assert_eq!(ask(&mut device, 6, ping), Err(Refusal::Time));
    assert_eq!(ask(&mut device, LAST_TIME_MS + 1, ping), Err(Refusal::Time));
    assert_eq!(ask(&mut device, LAST_TIME_MS, ping), Ok(Some((1, vec![]))));

    let mut buffer = [0; 60];
    let mut collection = Collection::new(&mut buffer);
    let packets = |len: usize| {
        CtapHid::split_message(Message {
            payload: &[0; 200][..len],
            ..ping
        })
    };
    let first = packets(61).next().unwrap();
    assert_eq!(collection.take_packet(cid, &first), Err(Refusal::LongReply));
    let first = packets(60).next().unwrap();
    assert_eq!(collection.take_packet(cid, &first), Ok(Progress::Waiting));
    assert_eq!(collection.take_packet(cid, &first), Err(Refusal::Sequence));
    assert_eq!(Refusal::Sequence as u8, 9);
    assert_eq!(Refusal::Sequence.to_string(), "a packet out of order");
}
