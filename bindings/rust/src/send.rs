//! A message cut into packets.
use crate::message::{HidPacket, Message};
use crate::raw::{self, kind};

/// The packets of a message, each made when it is asked for.
#[derive(Clone, Debug)]
pub struct HidPacketIterator<'a> {
    cid: u32,
    cmd: u8,
    payload: &'a [u8],
    internal_error: u8,
    index: usize,
    count: usize,
}

impl<'a> HidPacketIterator<'a> {
    /// The packets of a message, or `None` for a payload of more than 7,609 bytes.
    ///
    /// ```
    /// use snjofrask::{CtapHidCommand, HidPacketIterator, Message};
    ///
    /// let ping = |payload| Message { cid: [0, 0, 0, 1], cmd: CtapHidCommand::Ping, payload };
    /// let mut packets = HidPacketIterator::new(ping(&[7; 58])).unwrap();
    /// assert_eq!(packets.next().unwrap()[..8], [0, 0, 0, 1, 0x81, 0, 58, 7]);
    /// assert!(packets.has_data());
    /// assert_eq!(packets.next().unwrap()[..7], [0, 0, 0, 1, 0, 7, 0]);
    /// assert!(!packets.has_data());
    /// assert_eq!(packets.next(), None);
    ///
    /// assert!(HidPacketIterator::new(ping(&[7; 7610])).is_none());
    /// ```
    pub fn new(message: Message<'a>) -> Option<HidPacketIterator<'a>> {
        let count = raw::packet_count(message.payload.len());
        if count.kind == kind::REFUSED {
            return None;
        }
        // no byte is needed in place of a payload that isn't too long
        Some(Self::counted(message, 0, count.len))
    }

    /// No packets.
    ///
    /// ```
    /// let mut packets = snjofrask::HidPacketIterator::none();
    /// assert!(!packets.has_data());
    /// assert_eq!(packets.next(), None);
    /// ```
    pub fn none() -> HidPacketIterator<'a> {
        HidPacketIterator {
            cid: 0,
            cmd: 0,
            payload: &[],
            internal_error: 0,
            index: 0,
            count: 0,
        }
    }

    /// Whether a packet is left.
    pub fn has_data(&self) -> bool {
        self.index < self.count
    }

    // a payload that is too long is one packet with the byte internal_error
    pub(crate) fn split(message: Message<'a>, internal_error: u8) -> HidPacketIterator<'a> {
        let count = raw::packet_count(message.payload.len());
        let count = if count.kind == kind::REFUSED {
            1
        } else {
            count.len
        };
        Self::counted(message, internal_error, count)
    }

    fn counted(message: Message<'a>, internal_error: u8, count: usize) -> HidPacketIterator<'a> {
        HidPacketIterator {
            cid: u32::from_be_bytes(message.cid),
            cmd: message.cmd.number(),
            payload: message.payload,
            internal_error,
            index: 0,
            count,
        }
    }
}

impl Iterator for HidPacketIterator<'_> {
    type Item = HidPacket;

    fn next(&mut self) -> Option<HidPacket> {
        if !self.has_data() {
            return None;
        }
        let mut packet = [0; 64];
        let refusal = raw::split_message(
            self.cid,
            self.cmd,
            self.payload,
            self.internal_error,
            self.index,
            &mut packet,
        );
        self.index = self.index.saturating_add(1);
        (refusal == 0).then_some(packet)
    }

    fn size_hint(&self) -> (usize, Option<usize>) {
        let left = self.count.saturating_sub(self.index);
        (left, Some(left))
    }
}

impl ExactSizeIterator for HidPacketIterator<'_> {}

impl core::iter::FusedIterator for HidPacketIterator<'_> {}
