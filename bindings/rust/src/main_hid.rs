//! The device: the transport, and the wink.
use crate::hid::{CtapHid, Parsed, SHORT_REPLY_SIZE, parsed, running};
use crate::message::{HidPacket, Message, Refusal};
use crate::raw::{self, Outcome};
use crate::send::HidPacketIterator;

/// What a packet brings about.
#[derive(Clone, Debug)]
pub enum Processed<'a> {
    /// Packets to be sent, or none.
    Packets(HidPacketIterator<'a>),
    /// MSG, CBOR or a vendor command that was listed, for the caller to answer, on the same channel with the same
    /// command, by [`CtapHid::split_message`]. The payload stands in the device's buffer until the next packet.
    Request(Message<'a>),
}

/// A device: all of CTAPHID but what MSG, CBOR and vendor commands mean.
#[derive(Debug)]
pub struct MainHid<'b> {
    state: raw::MainHid,
    message: &'b mut [u8],
    reply: [u8; SHORT_REPLY_SIZE],
}

impl<'b> MainHid<'b> {
    /// A fresh device. Messages are put together in `message`, and its length is the largest that is taken. Without
    /// U2F (`ctap1`) it answers MSG itself, with an error. `vendor` has the numbers of the vendor commands that it knows,
    /// in any order; one may stand there twice.
    /// A buffer of more than 7,609 bytes is refused, and then a number that isn't 64 to 127.
    ///
    /// ```
    /// use snjofrask::{CHANNEL_BROADCAST, CtapHid, CtapHidCommand, MainHid, Message, Processed, Refusal};
    ///
    /// let mut buffer = [0; 100];
    /// let mut device = MainHid::new(&mut buffer, true, &[0x40])?;
    /// let init = Message { cid: CHANNEL_BROADCAST, cmd: CtapHidCommand::Init, payload: &[0; 8] };
    /// let label = Message { cid: [0, 0, 0, 1], cmd: CtapHidCommand::from(0x40), payload: b"gate 3" };
    /// let other = Message { cmd: CtapHidCommand::from(0x41), ..label };
    /// let mut handed = Vec::new();
    /// let mut sent = Vec::new();
    /// for packet in [init, label, other].into_iter().flat_map(CtapHid::split_message) {
    ///     match device.process_hid_packet(0, &packet, false)? {
    ///         Processed::Packets(packets) => sent.extend(packets),
    ///         Processed::Request(request) => handed.push((request.cmd.number(), request.payload.to_vec())),
    ///     }
    /// }
    /// assert_eq!(handed, [(0x40, b"gate 3".to_vec())]);
    /// assert_eq!(sent[1][..8], [0, 0, 0, 1, 0xBF, 0, 1, 1]);
    /// # Ok::<(), Refusal>(())
    /// ```
    pub fn new(message: &'b mut [u8], ctap1: bool, vendor: &[u8]) -> Result<MainHid<'b>, Refusal> {
        let mut state = raw::MainHid::default();
        match raw::device_new(&mut state, message.len(), ctap1, vendor) {
            0 => Ok(MainHid {
                state,
                message,
                reply: [0; SHORT_REPLY_SIZE],
            }),
            number => Err(Refusal::numbered(number)),
        }
    }

    /// A packet that came at a time. While the transport is disabled every allocated channel is told that it is busy.
    ///
    /// The example at the top of this crate answers a request. A message of two packets, too slow:
    ///
    /// ```
    /// use snjofrask::{CHANNEL_BROADCAST, CtapHid, CtapHidCommand, MainHid, Message, Processed, Refusal};
    ///
    /// let mut buffer = [0; 100];
    /// let mut device = MainHid::new(&mut buffer, false, &[])?;
    /// let init = Message { cid: CHANNEL_BROADCAST, cmd: CtapHidCommand::Init, payload: &[0; 8] };
    /// let ping = Message { cid: [0, 0, 0, 1], cmd: CtapHidCommand::Ping, payload: &[0; 58] };
    /// let mut sent = Vec::new();
    /// for (time_ms, packet) in [0, 10, 110].into_iter().zip([init, ping].into_iter().flat_map(CtapHid::split_message)) {
    ///     let Processed::Packets(packets) = device.process_hid_packet(time_ms, &packet, false)? else { panic!() };
    ///     sent.push(packets.collect::<Vec<_>>());
    /// }
    /// assert_eq!(sent[0][0][23], 13);
    /// assert!(sent[1].is_empty());
    /// assert_eq!(sent[2][0][..8], [0, 0, 0, 1, 0xBF, 0, 1, 5]);
    /// # Ok::<(), Refusal>(())
    /// ```
    pub fn process_hid_packet(
        &mut self,
        time_ms: u64,
        packet: &HidPacket,
        is_transport_disabled: bool,
    ) -> Result<Processed<'_>, Refusal> {
        let outcome = raw::device_step(
            &mut self.state,
            time_ms,
            is_transport_disabled,
            packet,
            self.message,
            &mut self.reply,
        );
        processed(outcome, self.message, &self.reply)
    }

    /// Whether a channel holds a lock at a time. The question alters nothing.
    pub fn has_channel_lock(&self, time_ms: u64) -> Result<bool, Refusal> {
        running(raw::is_locked(&self.state.hid, time_ms))
    }

    /// Whether a wink runs at a time. The question alters nothing.
    ///
    /// ```
    /// use snjofrask::{CHANNEL_BROADCAST, CtapHid, CtapHidCommand, MainHid, Message, Refusal};
    ///
    /// let mut buffer = [0; 100];
    /// let mut device = MainHid::new(&mut buffer, true, &[])?;
    /// let init = Message { cid: CHANNEL_BROADCAST, cmd: CtapHidCommand::Init, payload: &[0; 8] };
    /// let wink = Message { cid: [0, 0, 0, 1], cmd: CtapHidCommand::Wink, payload: &[] };
    /// for packet in [init, wink].into_iter().flat_map(CtapHid::split_message) {
    ///     device.process_hid_packet(100, &packet, false)?;
    /// }
    /// assert_eq!(device.should_wink(5099), Ok(true));
    /// assert_eq!(device.should_wink(5100), Ok(false));
    /// assert_eq!(device.should_wink(99), Err(Refusal::Time));
    /// assert_eq!(device.has_channel_lock(100), Ok(false));
    /// # Ok::<(), Refusal>(())
    /// ```
    pub fn should_wink(&self, time_ms: u64) -> Result<bool, Refusal> {
        running(raw::is_winking(&self.state, time_ms))
    }

    /// How many continuation packets the message on its way in still needs, 0 where there is none: for a light that shows
    /// progress. A message whose time is over keeps it until a packet drops it.
    ///
    /// ```
    /// use snjofrask::{CHANNEL_BROADCAST, CtapHid, CtapHidCommand, MainHid, Message, Refusal};
    ///
    /// let mut buffer = [0; 300];
    /// let mut device = MainHid::new(&mut buffer, true, &[])?;
    /// let init = Message { cid: CHANNEL_BROADCAST, cmd: CtapHidCommand::Init, payload: &[0; 8] };
    /// let ping = Message { cid: [0, 0, 0, 1], cmd: CtapHidCommand::Ping, payload: &[0; 300] };
    /// let mut shown = Vec::new();
    /// for packet in [init, ping].into_iter().flat_map(CtapHid::split_message) {
    ///     device.process_hid_packet(0, &packet, false)?;
    ///     shown.push(device.still_due());
    /// }
    /// assert_eq!(shown, [0, 5, 4, 3, 2, 1, 0]);
    /// # Ok::<(), Refusal>(())
    /// ```
    pub fn still_due(&self) -> u16 {
        self.state.hid.still_due
    }
}

// What a step of a device brings about.
pub(crate) fn processed<'a>(
    outcome: Outcome,
    message: &'a [u8],
    reply: &'a [u8],
) -> Result<Processed<'a>, Refusal> {
    Ok(match parsed(outcome, message, reply)? {
        Parsed::Nothing => Processed::Packets(HidPacketIterator::none()),
        Parsed::Message(message) => Processed::Request(message),
        Parsed::Reply(message) => Processed::Packets(CtapHid::split_message(message)),
    })
}
