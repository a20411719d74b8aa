//! Prints the packets that OpenSK's sender makes of messages of chosen lengths.
use host::HostEnv;
use opensk::ctap::hid::{CtapHid, CtapHidCommand, HidPacket, HidPacketIterator, Message};

/// The shortest, both sides of the first two steps to one packet more, and the longest.
const LENGTHS: [usize; 7] = [0, 1, 57, 58, 116, 117, 7609];
const TOO_LONG: usize = 7610;

fn main() {
    for length in LENGTHS {
        println!("{length} bytes");
        print_packets(HidPacketIterator::new(message(length)).unwrap());
    }
    println!("{TOO_LONG} bytes, split_message");
    print_packets(CtapHid::<HostEnv>::split_message(message(TOO_LONG)));
}

fn message(length: usize) -> Message {
    Message {
        cid: [1, 2, 3, 4],
        cmd: CtapHidCommand::Cbor,
        // mod a prime, so that each packet of the longest message begins with another byte
        payload: (0..length).map(|i| (i % 251) as u8).collect(),
    }
}

fn print_packets(mut packets: HidPacketIterator) {
    loop {
        let promised = packets.has_data();
        let packet = packets.next();
        assert_eq!(promised, packet.is_some());
        match packet {
            Some(packet) => println!("{}", hex(&packet)),
            None => break,
        }
    }
    assert!(!packets.has_data());
    println!("none left");
}

fn hex(packet: &HidPacket) -> String {
    packet.iter().map(|byte| format!("{byte:02x}")).collect()
}
