//! The transport: packets into messages, channels, the lock, INIT.
use crate::message::{
    ChannelID, CtapHidCommand, CtapHidError, HidPacket, KeepaliveStatus, Message, ProcessedPacket,
    Refusal,
};
use crate::raw::{self, Outcome, kind};
use crate::send::HidPacketIterator;

pub(crate) const SHORT_REPLY_SIZE: usize = 17;

/// What a packet brings about.
#[derive(Clone, Copy, Debug, PartialEq, Eq)]
pub enum Parsed<'a> {
    /// Nothing is to be sent.
    Nothing,
    /// MSG, CBOR, WINK or a vendor command that was listed, for the caller to answer, on the same channel with the same
    /// command or with an error.
    Message(Message<'a>),
    /// To be sent, by [`CtapHid::split_message`].
    Reply(Message<'a>),
}

/// The transport alone. [`MainHid`](crate::MainHid) answers WINK as well.
#[derive(Debug)]
pub struct CtapHid<'b> {
    state: raw::CtapHid,
    message: &'b mut [u8],
    reply: [u8; SHORT_REPLY_SIZE],
}

impl<'b> CtapHid<'b> {
    /// Capability: WINK.
    pub const CAPABILITY_WINK: u8 = 0x01;
    /// Capability: CBOR.
    pub const CAPABILITY_CBOR: u8 = 0x04;
    /// Capability: no MSG.
    pub const CAPABILITY_NMSG: u8 = 0x08;

    /// The byte that takes the place of a reply that is too long, CTAP2_ERR_VENDOR_INTERNAL_ERROR.
    pub const INTERNAL_ERROR: u8 = 0xF2;

    /// A fresh transport. Messages are put together in `message`, and its length is the largest that is taken.
    /// It reports WINK and CBOR, and without U2F (`ctap1`) that it has no MSG. `vendor` has the numbers of the vendor
    /// commands that it knows, in any order; one may stand there twice.
    ///
    /// A buffer of more than 7,609 bytes is refused, and then a number that isn't 64 to 127:
    ///
    /// ```
    /// use snjofrask::{CtapHid, Refusal};
    ///
    /// let mut buffer = [0; 7610];
    /// assert_eq!(CtapHid::new(&mut buffer, true, &[63]).err(), Some(Refusal::Maximum));
    /// assert_eq!(CtapHid::new(&mut buffer[..7609], true, &[63]).err(), Some(Refusal::Vendor));
    /// assert!(CtapHid::new(&mut buffer[..7609], true, &[127, 64, 127]).is_ok());
    /// assert!(CtapHid::new(&mut buffer[..7609], true, &[]).is_ok());
    /// ```
    pub fn new(message: &'b mut [u8], ctap1: bool, vendor: &[u8]) -> Result<CtapHid<'b>, Refusal> {
        let mut state = raw::CtapHid::default();
        match raw::transport_new(&mut state, message.len(), ctap1, vendor) {
            0 => Ok(CtapHid {
                state,
                message,
                reply: [0; SHORT_REPLY_SIZE],
            }),
            number => Err(Refusal::numbered(number)),
        }
    }

    /// A packet that came at a time. INIT, PING, LOCK, CANCEL, errors and unknown commands are dealt with here, the last at
    /// their first packet.
    /// While the transport is disabled every allocated channel is told that it is busy.
    ///
    /// ```
    /// use snjofrask::{CHANNEL_BROADCAST, CtapHid, CtapHidCommand, Message, Parsed, Refusal};
    ///
    /// let mut buffer = [0; 100];
    /// let mut hid = CtapHid::new(&mut buffer, true, &[0x40])?;
    /// let mut send = |time_ms, cid, cmd, payload| {
    ///     let packet = CtapHid::split_message(Message { cid, cmd, payload }).next().unwrap();
    ///     hid.parse_packet(time_ms, &packet, false).map(|parsed| match parsed {
    ///         Parsed::Nothing => None,
    ///         Parsed::Message(message) => Some((true, message.cmd, message.payload.to_vec())),
    ///         Parsed::Reply(message) => Some((false, message.cmd, message.payload.to_vec())),
    ///     })
    /// };
    ///
    /// let (asked, cmd, payload) = send(0, CHANNEL_BROADCAST, CtapHidCommand::Init, &[9; 8])?.unwrap();
    /// assert!(!asked && cmd == CtapHidCommand::Init && payload[..12] == [9, 9, 9, 9, 9, 9, 9, 9, 0, 0, 0, 1]);
    ///
    /// let one = [0, 0, 0, 1];
    /// assert_eq!(send(5, one, CtapHidCommand::Ping, &[7])?, Some((false, CtapHidCommand::Ping, vec![7])));
    /// assert_eq!(send(5, one, CtapHidCommand::Wink, &[])?, Some((true, CtapHidCommand::Wink, vec![])));
    /// assert_eq!(send(5, one, CtapHidCommand::Cancel, &[])?, None);
    /// let listed = CtapHidCommand::from(0x40);
    /// assert_eq!(send(5, one, listed, &[7])?, Some((true, listed, vec![7])));
    /// assert_eq!(send(5, one, CtapHidCommand::from(0x41), &[7])?, Some((false, CtapHidCommand::Error, vec![1])));
    /// assert_eq!(send(5, [0, 0, 0, 2], CtapHidCommand::Ping, &[])?, Some((false, CtapHidCommand::Error, vec![0x0B])));
    ///
    /// // time doesn't go back
    /// assert_eq!(send(4, one, CtapHidCommand::Ping, &[]), Err(Refusal::Time));
    /// # Ok::<(), Refusal>(())
    /// ```
    pub fn parse_packet(
        &mut self,
        time_ms: u64,
        packet: &HidPacket,
        is_transport_disabled: bool,
    ) -> Result<Parsed<'_>, Refusal> {
        let outcome = raw::transport_step(
            &mut self.state,
            time_ms,
            is_transport_disabled,
            packet,
            self.message,
            &mut self.reply,
        );
        parsed(outcome, self.message, &self.reply)
    }

    /// Whether a channel holds a lock at a time. The question alters nothing.
    ///
    /// ```
    /// use snjofrask::{CHANNEL_BROADCAST, CtapHid, CtapHidCommand, Message, Refusal};
    ///
    /// let mut buffer = [0; 100];
    /// let mut hid = CtapHid::new(&mut buffer, true, &[])?;
    /// let lock = Message { cid: [0, 0, 0, 1], cmd: CtapHidCommand::Lock, payload: &[2] };
    /// let init = Message { cid: CHANNEL_BROADCAST, cmd: CtapHidCommand::Init, payload: &[0; 8] };
    /// for message in [init, lock] {
    ///     for packet in CtapHid::split_message(message) {
    ///         hid.parse_packet(10, &packet, false)?;
    ///     }
    /// }
    /// assert_eq!(hid.has_channel_lock(2009), Ok(true));
    /// assert_eq!(hid.has_channel_lock(2010), Ok(false));
    /// assert_eq!(hid.has_channel_lock(9), Err(Refusal::Time));
    /// # Ok::<(), Refusal>(())
    /// ```
    pub fn has_channel_lock(&self, time_ms: u64) -> Result<bool, Refusal> {
        running(raw::is_locked(&self.state, time_ms))
    }

    /// How many continuation packets the message on its way in still needs, 0 where there is none: for a light that shows
    /// progress. A message whose time is over keeps it until a packet drops it.
    ///
    /// ```
    /// use snjofrask::{CHANNEL_BROADCAST, CtapHid, CtapHidCommand, Message, Refusal};
    ///
    /// let mut buffer = [0; 100];
    /// let mut hid = CtapHid::new(&mut buffer, true, &[])?;
    /// let init = Message { cid: CHANNEL_BROADCAST, cmd: CtapHidCommand::Init, payload: &[0; 8] };
    /// let ping = Message { cid: [0, 0, 0, 1], cmd: CtapHidCommand::Ping, payload: &[0; 58] };
    /// for (packet, still_due) in [init, ping].into_iter().flat_map(CtapHid::split_message).zip([0, 1, 0]) {
    ///     hid.parse_packet(0, &packet, false)?;
    ///     assert_eq!(hid.still_due(), still_due);
    /// }
    /// # Ok::<(), Refusal>(())
    /// ```
    pub fn still_due(&self) -> u16 {
        self.state.still_due
    }

    /// An ERROR.
    ///
    /// ```
    /// use snjofrask::{CtapHid, CtapHidCommand, CtapHidError};
    ///
    /// let error = CtapHid::error_message([0, 0, 0, 1], CtapHidError::InvalidCmd);
    /// assert_eq!((error.cmd, error.payload), (CtapHidCommand::Error, &[1][..]));
    /// ```
    pub fn error_message(cid: ChannelID, error_code: CtapHidError) -> Message<'static> {
        Message {
            cid,
            cmd: CtapHidCommand::Error,
            payload: error_code.payload(),
        }
    }

    /// What a packet says, read by itself.
    ///
    /// ```
    /// use snjofrask::{CtapHid, ProcessedPacket};
    ///
    /// let mut packet = [5; 64];
    /// packet[4..7].copy_from_slice(&[0x81, 1, 2]);
    /// let first = ProcessedPacket::InitPacket { cmd: 1, len: 258, data: &[5; 57] };
    /// assert_eq!(CtapHid::process_single_packet(&packet), ([5; 4], first));
    /// let later = ProcessedPacket::ContinuationPacket { seq: 5, data: &[5; 59] };
    /// assert_eq!(CtapHid::process_single_packet(&[5; 64]), ([5; 4], later));
    /// ```
    pub fn process_single_packet(packet: &HidPacket) -> (ChannelID, ProcessedPacket<'_>) {
        let outcome = raw::read_packet(packet);
        let processed = if outcome.kind == kind::FIRST {
            let [_, _, _, _, _, _, _, data @ ..] = packet;
            ProcessedPacket::InitPacket {
                cmd: outcome.cmd,
                len: outcome.len,
                data,
            }
        } else {
            let [_, _, _, _, _, data @ ..] = packet;
            ProcessedPacket::ContinuationPacket {
                seq: outcome.cmd,
                data,
            }
        };
        (outcome.cid.to_be_bytes(), processed)
    }

    /// The packets of a reply. One of more than 7,609 bytes becomes CBOR with the byte
    /// [`INTERNAL_ERROR`](Self::INTERNAL_ERROR).
    ///
    /// ```
    /// use snjofrask::{CtapHid, CtapHidCommand, Message};
    ///
    /// let reply = |payload| Message { cid: [0, 0, 0, 1], cmd: CtapHidCommand::Cbor, payload };
    /// assert_eq!(CtapHid::split_message(reply(&[0; 7609])).count(), 129);
    /// let mut replaced = CtapHid::split_message(reply(&[0; 7610]));
    /// assert_eq!(replaced.next().unwrap()[..8], [0, 0, 0, 1, 0x90, 0, 1, 0xF2]);
    /// assert!(!replaced.has_data());
    /// ```
    pub fn split_message(message: Message<'_>) -> HidPacketIterator<'_> {
        HidPacketIterator::split(message, Self::INTERNAL_ERROR)
    }

    /// The packet that says that a device is not done yet.
    ///
    /// ```
    /// use snjofrask::{CtapHid, KeepaliveStatus};
    ///
    /// let mut packets = CtapHid::keepalive([0, 0, 0, 1], KeepaliveStatus::UpNeeded);
    /// assert_eq!(packets.next().unwrap()[..8], [0, 0, 0, 1, 0xBB, 0, 1, 2]);
    /// assert!(!packets.has_data());
    /// ```
    pub fn keepalive(cid: ChannelID, status: KeepaliveStatus) -> HidPacketIterator<'static> {
        CtapHid::split_message(Message {
            cid,
            cmd: CtapHidCommand::Keepalive,
            payload: status.payload(),
        })
    }

    /// The packet that says that another channel has the device.
    ///
    /// ```
    /// use snjofrask::CtapHid;
    ///
    /// assert_eq!(CtapHid::busy_error([0, 0, 0, 1]).next().unwrap()[..8], [0, 0, 0, 1, 0xBF, 0, 1, 6]);
    /// ```
    pub fn busy_error(cid: ChannelID) -> HidPacketIterator<'static> {
        CtapHid::split_message(CtapHid::error_message(cid, CtapHidError::ChannelBusy))
    }
}

// What a step says, with its payload.
pub(crate) fn parsed<'a>(
    outcome: Outcome,
    message: &'a [u8],
    reply: &'a [u8],
) -> Result<Parsed<'a>, Refusal> {
    let of = |buffer: &'a [u8]| Message {
        cid: outcome.cid.to_be_bytes(),
        cmd: CtapHidCommand::from(outcome.cmd),
        // an outcome's payload is never longer than its buffer
        payload: buffer.get(..outcome.len).unwrap_or_default(),
    };
    match outcome.kind {
        kind::REFUSED => Err(Refusal::numbered(outcome.refusal)),
        kind::MESSAGE => Ok(Parsed::Message(of(message))),
        kind::ECHO => Ok(Parsed::Reply(of(message))),
        kind::REPLY => Ok(Parsed::Reply(of(reply))),
        _ => Ok(Parsed::Nothing),
    }
}

pub(crate) fn running(number: u8) -> Result<bool, Refusal> {
    match number {
        0 => Ok(false),
        1 => Ok(true),
        refusal => Err(Refusal::numbered(refusal)),
    }
}
