//! A host for whatever takes packets: messages of zeros, whole messages and their replies.
use snjofrask::{
    CHANNEL_BROADCAST, ChannelID, Collection, CtapHid, CtapHidCommand, CtapHidError, HidPacket,
    HidPacketIterator, LARGEST_PAYLOAD, MainHid, Message, Processed, Progress, Refusal, init_reply,
};

/// Lengths of messages that stand at a boundary.
pub const LENGTHS: [usize; 12] = [0, 1, 56, 57, 58, 115, 116, 117, 175, 1024, 7608, 7609];

/// Bytes of which no two neighbours are alike.
pub fn bytes(len: usize) -> Vec<u8> {
    (0..len).map(|i| (i % 251) as u8).collect()
}

/// One packet of a message of zeros.
pub fn packet(cid: ChannelID, cmd: CtapHidCommand, len: usize, index: usize) -> HidPacket {
    let payload = &[0; LARGEST_PAYLOAD][..len];
    let mut packets = HidPacketIterator::new(Message { cid, cmd, payload }).unwrap();
    packets.nth(index).unwrap()
}

/// What takes packets: a device with one interface, or one of a key's.
pub trait Device {
    fn process(&mut self, time_ms: u64, packet: &HidPacket) -> Result<Processed<'_>, Refusal>;
}

impl Device for MainHid<'_> {
    fn process(&mut self, time_ms: u64, packet: &HidPacket) -> Result<Processed<'_>, Refusal> {
        self.process_hid_packet(time_ms, packet, false)
    }
}

/// Sends a message, answers requests by the reverse of their payload, and reads the reply.
pub fn ask(
    device: &mut impl Device,
    time_ms: u64,
    message: Message,
) -> Result<Option<(u8, Vec<u8>)>, Refusal> {
    let mut buffer = [0; LARGEST_PAYLOAD];
    let mut collection = Collection::new(&mut buffer);
    let mut reply = None;
    let mut hear = |packets: HidPacketIterator| {
        for packet in packets {
            match collection.take_packet(message.cid, &packet).unwrap() {
                Progress::Waiting => {}
                Progress::Reply { cmd, payload } => {
                    assert_eq!(reply.replace((cmd, payload.to_vec())), None)
                }
                other => panic!("{other:?}"),
            }
        }
    };
    for packet in HidPacketIterator::new(message).unwrap() {
        match device.process(time_ms, &packet)? {
            Processed::Packets(packets) => hear(packets),
            Processed::Request(request) => {
                let payload: Vec<u8> = request.payload.iter().rev().copied().collect();
                hear(CtapHid::split_message(Message {
                    payload: &payload,
                    ..request
                }));
            }
        }
    }
    Ok(reply)
}

/// The channel and the capabilities that a device replies to INIT.
pub fn init(device: &mut impl Device, time_ms: u64, nonce: [u8; 8]) -> (ChannelID, u8) {
    let message = Message {
        cid: CHANNEL_BROADCAST,
        cmd: CtapHidCommand::Init,
        payload: &nonce,
    };
    let (cmd, payload) = ask(device, time_ms, message).unwrap().unwrap();
    let reply = init_reply(cmd, &payload).unwrap();
    assert_eq!((reply.nonce, reply.rest), (nonce, &[][..]));
    (reply.cid, reply.capabilities)
}

/// The reply that tells an error.
pub fn error(cid: ChannelID, error: CtapHidError) -> Option<(u8, Vec<u8>)> {
    let message = CtapHid::error_message(cid, error);
    Some((message.cmd.number(), message.payload.to_vec()))
}
