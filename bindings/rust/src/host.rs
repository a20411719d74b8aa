//! The other end: replies put together from packets. OpenSK has none.
use crate::message::{ChannelID, HidPacket, Refusal};
use crate::raw::{self, kind};

/// What a packet brings about.
#[derive(Clone, Copy, Debug, PartialEq, Eq)]
pub enum Progress<'a> {
    /// It is of another channel, or a continuation before a first packet.
    Ignored,
    /// The device is not done yet; the byte says why ([`KeepaliveStatus`](crate::KeepaliveStatus)).
    Keepalive(u8),
    /// It was taken, and more is due.
    Waiting,
    /// A whole reply.
    Reply {
        /// The command as it stands in the packet. [`CtapHidCommand::Error`](crate::CtapHidCommand::Error) is
        /// a reply as well.
        cmd: u8,
        /// The bytes.
        payload: &'a [u8],
    },
}

/// A host's reply on its way in.
#[derive(Debug)]
pub struct Collection<'b> {
    state: raw::Collection,
    buffer: &'b mut [u8],
}

impl<'b> Collection<'b> {
    /// No reply is begun. Replies are put together in the buffer, and longer ones are refused.
    pub fn new(buffer: &'b mut [u8]) -> Collection<'b> {
        Collection {
            state: raw::Collection::default(),
            buffer,
        }
    }

    /// A packet, read for a channel.
    ///
    /// ```
    /// use snjofrask::{Collection, CtapHid, CtapHidCommand, KeepaliveStatus, Message, Progress, Refusal};
    ///
    /// let (cid, payload) = ([0, 0, 0, 1], [7; 58]);
    /// let mut packets = CtapHid::split_message(Message { cid, cmd: CtapHidCommand::Cbor, payload: &payload });
    /// let keepalive = CtapHid::keepalive(cid, KeepaliveStatus::UpNeeded).next().unwrap();
    /// let busy = CtapHid::busy_error([0, 0, 0, 2]).next().unwrap();
    ///
    /// let mut buffer = [0; 100];
    /// let mut collection = Collection::new(&mut buffer);
    /// assert_eq!(collection.take_packet(cid, &keepalive), Ok(Progress::Keepalive(2)));
    /// assert_eq!(collection.take_packet(cid, &packets.next().unwrap()), Ok(Progress::Waiting));
    /// assert_eq!(collection.take_packet(cid, &busy), Ok(Progress::Ignored));
    /// assert_eq!(collection.take_packet(cid, &keepalive), Err(Refusal::Sequence));
    /// let reply = Progress::Reply { cmd: CtapHidCommand::Cbor.number(), payload: &payload };
    /// assert_eq!(collection.take_packet(cid, &packets.next().unwrap()), Ok(reply));
    /// ```
    pub fn take_packet(
        &mut self,
        cid: ChannelID,
        packet: &HidPacket,
    ) -> Result<Progress<'_>, Refusal> {
        let outcome = raw::host_read(
            &mut self.state,
            u32::from_be_bytes(cid),
            packet,
            self.buffer,
        );
        match outcome.kind {
            kind::REFUSED => Err(Refusal::numbered(outcome.refusal)),
            kind::KEEPALIVE => Ok(Progress::Keepalive(outcome.cmd)),
            kind::WAITING => Ok(Progress::Waiting),
            kind::COLLECTED => Ok(Progress::Reply {
                cmd: outcome.cmd,
                // a reply is never longer than the buffer
                payload: self.buffer.get(..outcome.len).unwrap_or_default(),
            }),
            _ => Ok(Progress::Ignored),
        }
    }

    /// Gives up a reply that is begun.
    ///
    /// ```
    /// use snjofrask::{Collection, CtapHid, CtapHidCommand, Message, Progress};
    ///
    /// let (cid, cmd) = ([0, 0, 0, 1], CtapHidCommand::Cbor);
    /// let first = CtapHid::split_message(Message { cid, cmd, payload: &[7; 58] }).next().unwrap();
    /// let mut buffer = [0; 100];
    /// let mut collection = Collection::new(&mut buffer);
    /// assert_eq!(collection.take_packet(cid, &first), Ok(Progress::Waiting));
    /// collection.clear();
    /// assert_eq!(collection.take_packet(cid, &first), Ok(Progress::Waiting));
    /// ```
    pub fn clear(&mut self) {
        self.state = raw::Collection::default();
    }
}

/// What a reply to INIT tells.
#[derive(Clone, Copy, Debug, PartialEq, Eq)]
pub struct InitReply<'a> {
    /// The bytes that the host sent, if the reply is its own.
    pub nonce: [u8; 8],
    /// The channel to use from now on.
    pub cid: ChannelID,
    /// The protocol's version, 2.
    pub protocol: u8,
    /// The device's version: major,
    pub major: u8,
    /// minor,
    pub minor: u8,
    /// and build.
    pub build: u8,
    /// The capabilities, as [`CtapHid`](crate::CtapHid) has them.
    pub capabilities: u8,
    /// What follows these fields: the payload from byte 17 on. Later versions of the standard may add fields there;
    /// nothing is said of them.
    pub rest: &'a [u8],
}

/// Reads a reply to INIT, of 17 to [`LARGEST_PAYLOAD`](crate::LARGEST_PAYLOAD) bytes.
///
/// ```
/// use snjofrask::{CtapHidCommand, Refusal, init_reply};
///
/// let payload = [1, 2, 3, 4, 5, 6, 7, 8, 0, 0, 1, 0, 2, 1, 0, 0, 5, 0xAB, 0xCD];
/// let reply = init_reply(CtapHidCommand::Init.number(), &payload)?;
/// assert_eq!(reply.nonce, payload[..8]);
/// assert_eq!((reply.cid, reply.protocol, reply.capabilities), ([0, 0, 1, 0], 2, 5));
/// assert_eq!((reply.major, reply.minor, reply.build), (1, 0, 0));
/// assert_eq!(reply.rest, [0xAB, 0xCD]);
/// assert_eq!(init_reply(CtapHidCommand::Ping.number(), &payload), Err(Refusal::NotInit));
/// assert_eq!(init_reply(CtapHidCommand::Init.number(), &payload[..16]), Err(Refusal::NotInit));
/// # Ok::<(), Refusal>(())
/// ```
pub fn init_reply(cmd: u8, payload: &[u8]) -> Result<InitReply<'_>, Refusal> {
    let outcome = raw::init_reply(cmd, payload);
    if outcome.refusal != 0 {
        return Err(Refusal::numbered(outcome.refusal));
    }
    Ok(InitReply {
        nonce: outcome.nonce,
        cid: outcome.cid.to_be_bytes(),
        protocol: outcome.protocol,
        major: outcome.major,
        minor: outcome.minor,
        build: outcome.build,
        capabilities: outcome.capabilities,
        // what is taken has 17 bytes, and so many behind them
        rest: payload
            .get(17..)
            .and_then(|rest| rest.get(..usize::from(outcome.rest)))
            .unwrap_or_default(),
    })
}
