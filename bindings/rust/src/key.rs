//! A key with two interfaces, a main one and the vendor's.
use crate::hid::{SHORT_REPLY_SIZE, running};
use crate::main_hid::{Processed, processed};
use crate::message::{HidPacket, Refusal};
use crate::raw_key;

/// The interface of a [`Key`] on which a packet comes.
///
/// Its number will do for a [`Channel`](crate::Channel) that waits for a touch. The same channel of the other interface is
/// another:
///
/// ```
/// use snjofrask::{Channel, CtapHid, CtapHidCommand, Ending, Message, RecvStatus, Refusal, Transport, UserPresence, Wait};
///
/// let own = Channel { interface: Transport::VendorHid as u32, cid: [0, 0, 0, 1] };
/// let mut wait = Wait::begin(own, 0, 30_000)?;
/// let cancel = Message { cid: own.cid, cmd: CtapHidCommand::Cancel, payload: &[] };
/// let packet = CtapHid::split_message(cancel).next().unwrap();
/// for (transport, ending) in [(Transport::MainHid, Ending::NotYet), (Transport::VendorHid, Ending::Canceled)] {
///     let received = RecvStatus::Received(transport as u32);
///     assert_eq!(wait.respond_busy(0, UserPresence::Timeout, received, &packet)?.ending, ending);
/// }
/// # Ok::<(), Refusal>(())
/// ```
#[derive(Clone, Copy, Debug, PartialEq, Eq)]
pub enum Transport {
    /// The one that CTAP has.
    MainHid,
    /// The vendor's own.
    VendorHid,
}

/// A key with two interfaces. Each has channels, a lock, a message on its way in and the buffer for it; both have one time.
/// [`MainHid`](crate::MainHid) is a key with one.
///
/// No flag says that an interface is disabled: it is while the other one holds a lock. While a caller works on a request it gives
/// the key no packet: those that come go to the wait for a touch, if it waits for one, and else their channels are told by
/// [`busy_error`](crate::CtapHid::busy_error).
#[derive(Debug)]
pub struct Key<'b> {
    state: raw_key::Key,
    main: &'b mut [u8],
    vendor: &'b mut [u8],
    reply: [u8; SHORT_REPLY_SIZE],
}

impl<'b> Key<'b> {
    /// A fresh key. The messages of each interface are put together in its buffer, whose length is the largest that is taken
    /// there. Without U2F (`ctap1`) it answers MSG itself, with an error. `commands` has the numbers of the vendor commands that
    /// it knows, on both interfaces, in any order; one may stand there twice.
    ///
    /// A buffer of more than 7,609 bytes is refused, and then a number that isn't 64 to 127:
    ///
    /// ```
    /// use snjofrask::{Key, Refusal};
    ///
    /// let (mut main, mut vendor) = ([0; 7610], [0; 7610]);
    /// assert_eq!(Key::new(&mut main, &mut vendor[..100], true, &[63]).err(), Some(Refusal::Maximum));
    /// assert_eq!(Key::new(&mut main[..100], &mut vendor, true, &[63]).err(), Some(Refusal::Maximum));
    /// assert_eq!(Key::new(&mut main[..7609], &mut vendor[..100], true, &[63]).err(), Some(Refusal::Vendor));
    /// assert!(Key::new(&mut main[..7609], &mut vendor[..100], true, &[127, 64, 127]).is_ok());
    /// ```
    pub fn new(
        main: &'b mut [u8],
        vendor: &'b mut [u8],
        ctap1: bool,
        commands: &[u8],
    ) -> Result<Key<'b>, Refusal> {
        let mut state = raw_key::Key::default();
        match raw_key::new(&mut state, main.len(), vendor.len(), ctap1, commands) {
            0 => Ok(Key {
                state,
                main,
                vendor,
                reply: [0; SHORT_REPLY_SIZE],
            }),
            number => Err(Refusal::numbered(number)),
        }
    }

    /// A packet that came at a time on an interface. What is to be sent goes out on the same one. While the other one holds a lock,
    /// every allocated channel is told that it is busy. WINK is for the main one alone: on the vendor's it is no command.
    ///
    /// Two messages at once, on channels of the same number:
    ///
    /// ```
    /// use snjofrask::{CHANNEL_BROADCAST, CtapHid, CtapHidCommand, Key, Message, Processed, Refusal, Transport};
    ///
    /// let (mut main, mut vendor) = ([0; 100], [0; 100]);
    /// let mut key = Key::new(&mut main, &mut vendor, true, &[0x40])?;
    /// let init = Message { cid: CHANNEL_BROADCAST, cmd: CtapHidCommand::Init, payload: &[0; 8] };
    /// let cbor = Message { cid: [0, 0, 0, 1], cmd: CtapHidCommand::Cbor, payload: &[4; 58] };
    /// let label = Message { cid: [0, 0, 0, 1], cmd: CtapHidCommand::from(0x40), payload: &[7; 58] };
    ///
    /// let on_main = [init, cbor].into_iter().flat_map(CtapHid::split_message);
    /// let on_vendor = [init, label].into_iter().flat_map(CtapHid::split_message);
    /// let (mut sent, mut handed) = (Vec::new(), Vec::new());
    /// for (main, vendor) in on_main.zip(on_vendor) {
    ///     for (packet, transport) in [(main, Transport::MainHid), (vendor, Transport::VendorHid)] {
    ///         match key.process_hid_packet(0, &packet, transport)? {
    ///             Processed::Packets(packets) => sent.extend(packets),
    ///             Processed::Request(request) => handed.push((transport, request.cmd, request.payload.to_vec())),
    ///         }
    ///     }
    /// }
    /// assert_eq!(sent[0][15..19], [0, 0, 0, 1]);
    /// assert_eq!(sent[1], sent[0]);
    /// assert_eq!(handed[0], (Transport::MainHid, cbor.cmd, vec![4; 58]));
    /// assert_eq!(handed[1], (Transport::VendorHid, label.cmd, vec![7; 58]));
    /// # Ok::<(), Refusal>(())
    /// ```
    pub fn process_hid_packet(
        &mut self,
        time_ms: u64,
        packet: &HidPacket,
        transport: Transport,
    ) -> Result<Processed<'_>, Refusal> {
        let (key, reply) = (&mut self.state, &mut self.reply);
        let (outcome, message) = match transport {
            Transport::MainHid => (
                raw_key::main_step(key, time_ms, packet, self.main, reply),
                &*self.main,
            ),
            Transport::VendorHid => (
                raw_key::vendor_step(key, time_ms, packet, self.vendor, reply),
                &*self.vendor,
            ),
        };
        processed(outcome, message, reply)
    }

    /// Whether a channel of an interface holds a lock at a time. Never one of each does. The question alters nothing.
    ///
    /// ```
    /// use snjofrask::{CHANNEL_BROADCAST, CtapHid, CtapHidCommand, Key, Message, Processed, Refusal, Transport};
    ///
    /// let (mut main, mut vendor) = ([0; 100], [0; 100]);
    /// let mut key = Key::new(&mut main, &mut vendor, true, &[])?;
    /// let init = Message { cid: CHANNEL_BROADCAST, cmd: CtapHidCommand::Init, payload: &[0; 8] };
    /// let lock = Message { cid: [0, 0, 0, 1], cmd: CtapHidCommand::Lock, payload: &[2] };
    /// let packet = |message| CtapHid::split_message(message).next().unwrap();
    /// for transport in [Transport::MainHid, Transport::VendorHid] {
    ///     key.process_hid_packet(10, &packet(init), transport)?;
    /// }
    /// key.process_hid_packet(10, &packet(lock), Transport::VendorHid)?;
    /// assert_eq!(key.has_channel_lock(Transport::VendorHid, 2009), Ok(true));
    /// assert_eq!(key.has_channel_lock(Transport::VendorHid, 2010), Ok(false));
    /// assert_eq!(key.has_channel_lock(Transport::MainHid, 9), Err(Refusal::Time));
    ///
    /// // so long the main one takes none, and is told so
    /// let Processed::Packets(mut packets) = key.process_hid_packet(2009, &packet(lock), Transport::MainHid)? else { panic!() };
    /// assert_eq!(packets.next(), CtapHid::busy_error(lock.cid).next());
    /// assert_eq!(key.has_channel_lock(Transport::MainHid, 2009), Ok(false));
    /// key.process_hid_packet(2010, &packet(lock), Transport::MainHid)?;
    /// assert_eq!(key.has_channel_lock(Transport::MainHid, 2010), Ok(true));
    /// # Ok::<(), Refusal>(())
    /// ```
    pub fn has_channel_lock(&self, transport: Transport, time_ms: u64) -> Result<bool, Refusal> {
        running(match transport {
            Transport::MainHid => raw_key::main_is_locked(&self.state, time_ms),
            Transport::VendorHid => raw_key::vendor_is_locked(&self.state, time_ms),
        })
    }

    /// Whether a wink runs at a time. Nothing on the vendor's interface begins or ends one. The question alters nothing.
    ///
    /// ```
    /// use snjofrask::{CHANNEL_BROADCAST, CtapHid, CtapHidCommand, Key, Message, Processed, Refusal, Transport};
    ///
    /// let (mut main, mut vendor) = ([0; 100], [0; 100]);
    /// let mut key = Key::new(&mut main, &mut vendor, true, &[])?;
    /// let init = Message { cid: CHANNEL_BROADCAST, cmd: CtapHidCommand::Init, payload: &[0; 8] };
    /// let wink = Message { cid: [0, 0, 0, 1], cmd: CtapHidCommand::Wink, payload: &[] };
    /// let mut sent = Vec::new();
    /// for transport in [Transport::MainHid, Transport::VendorHid] {
    ///     for packet in [init, wink].into_iter().flat_map(CtapHid::split_message) {
    ///         let Processed::Packets(packets) = key.process_hid_packet(100, &packet, transport)? else { panic!() };
    ///         sent.extend(packets);
    ///     }
    /// }
    /// assert_eq!(sent[1][..7], [0, 0, 0, 1, 0x88, 0, 0]);
    /// assert_eq!(sent[3][..8], [0, 0, 0, 1, 0xBF, 0, 1, 1]);
    /// assert_eq!(key.should_wink(5099), Ok(true));
    /// assert_eq!(key.should_wink(5100), Ok(false));
    /// assert_eq!(key.should_wink(99), Err(Refusal::Time));
    /// # Ok::<(), Refusal>(())
    /// ```
    pub fn should_wink(&self, time_ms: u64) -> Result<bool, Refusal> {
        running(raw_key::is_winking(&self.state, time_ms))
    }

    /// How many continuation packets the message on its way in on an interface still needs, 0 where there is none: for a light
    /// that shows progress. A message whose time is over keeps it until a packet drops it.
    ///
    /// ```
    /// use snjofrask::{CHANNEL_BROADCAST, CtapHid, CtapHidCommand, Key, Message, Refusal, Transport};
    ///
    /// let (mut main, mut vendor) = ([0; 300], [0; 300]);
    /// let mut key = Key::new(&mut main, &mut vendor, true, &[])?;
    /// let init = Message { cid: CHANNEL_BROADCAST, cmd: CtapHidCommand::Init, payload: &[0; 8] };
    /// let ping = Message { cid: [0, 0, 0, 1], cmd: CtapHidCommand::Ping, payload: &[0; 300] };
    /// for packet in [init, ping].into_iter().flat_map(CtapHid::split_message).take(2) {
    ///     key.process_hid_packet(0, &packet, Transport::VendorHid)?;
    /// }
    /// assert_eq!((key.still_due(Transport::MainHid), key.still_due(Transport::VendorHid)), (0, 5));
    /// # Ok::<(), Refusal>(())
    /// ```
    pub fn still_due(&self, transport: Transport) -> u16 {
        match transport {
            Transport::MainHid => self.state.main.hid.still_due,
            Transport::VendorHid => self.state.vendor.still_due,
        }
    }
}
