//! Waiting for a touch, and answering the packets that come meanwhile.
use crate::hid::running;
use crate::message::{ChannelID, CtapHidCommand, HidPacket, Refusal};
use crate::raw::{self, ending, presence};

/// A channel of one of the key's interfaces. The caller numbers these, as it likes.
#[derive(Clone, Copy, Debug, PartialEq, Eq)]
pub struct Channel {
    /// The interface.
    pub interface: u32,
    /// The channel there.
    pub cid: ChannelID,
}

/// What the touch sensor says.
#[derive(Clone, Copy, Debug, PartialEq, Eq)]
pub enum UserPresence {
    /// It was touched.
    Touched,
    /// Not so far.
    Timeout,
    /// It failed, or the user declined, by a number of the key's own.
    Failed(u8),
}

/// Whether a packet came.
#[derive(Clone, Copy, Debug, PartialEq, Eq)]
pub enum RecvStatus {
    /// None.
    Timeout,
    /// One, on this interface.
    Received(u32),
}

/// What has become of a wait.
#[derive(Clone, Copy, Debug, PartialEq, Eq)]
pub enum Ending {
    /// It goes on.
    NotYet,
    /// The key was touched.
    Touched,
    /// The host gave the request up. Its CANCEL has no answer, but the request does.
    Canceled,
    /// The sensor failed, with its number.
    Failed(u8),
    /// The limit has elapsed.
    TimedOut,
}

/// What a step of a wait brings about.
#[derive(Clone, Copy, Debug, PartialEq, Eq)]
pub struct Responded {
    sent: [raw::Sent; 2],
    count: u8,
    /// What has become of the wait.
    pub ending: Ending,
}

impl Responded {
    /// The packets to be sent, in this order, each with its interface: an error to another channel, and then a KEEPALIVE, or one
    /// of these, or none.
    ///
    /// ```
    /// use snjofrask::{Channel, CtapHid, KeepaliveStatus, RecvStatus, Refusal, UserPresence, Wait};
    ///
    /// let channel = Channel { interface: 0, cid: [0, 0, 0, 1] };
    /// let mut wait = Wait::begin(channel, 0, 30_000)?;
    /// let responded = wait.respond_busy(0, UserPresence::Timeout, RecvStatus::Timeout, &[0; 64])?;
    /// let keepalive = CtapHid::keepalive(channel.cid, KeepaliveStatus::UpNeeded).next().unwrap();
    /// assert!(responded.packets().eq([(0, keepalive)]));
    /// # Ok::<(), Refusal>(())
    /// ```
    pub fn packets(&self) -> impl Iterator<Item = (u32, HidPacket)> + use<> {
        self.sent().map(|sent| (sent.interface, packet_of(sent)))
    }

    fn sent(&self) -> impl Iterator<Item = raw::Sent> + use<> {
        let [first, second] = self.sent;
        let first = (self.count > 0).then_some(first);
        first.into_iter().chain((self.count > 1).then_some(second))
    }
}

// one byte is one packet, and the command is below 128, so this is not refused
fn packet_of(sent: raw::Sent) -> HidPacket {
    let mut packet = [0; 64];
    raw::write_packet(sent.cid, sent.cmd, &[sent.byte], 0, &mut packet);
    packet
}

/// A wait for a touch: the time, the sensor and the packets are the caller's. [`check_user_presence`] asks a key for these.
#[derive(Clone, Debug, PartialEq, Eq)]
pub struct Wait(raw::Wait);

impl Wait {
    /// A wait that begins at a time, for a request on a channel, and is over after `limit_ms`; with 0 it is over at once.
    ///
    /// A time above [`LAST_TIME_MS`](crate::LAST_TIME_MS) is refused:
    ///
    /// ```
    /// use snjofrask::{Channel, LAST_TIME_MS, Refusal, Wait};
    ///
    /// let channel = Channel { interface: 0, cid: [0, 0, 0, 1] };
    /// assert!(Wait::begin(channel, LAST_TIME_MS, 30_000).is_ok());
    /// assert_eq!(Wait::begin(channel, LAST_TIME_MS + 1, 30_000), Err(Refusal::Time));
    /// ```
    pub fn begin(channel: Channel, time_ms: u64, limit_ms: u32) -> Result<Wait, Refusal> {
        let mut wait = raw::Wait::default();
        let cid = u32::from_be_bytes(channel.cid);
        match raw::wait_begin(&mut wait, channel.interface, cid, time_ms, limit_ms) {
            0 => Ok(Wait(wait)),
            number => Err(Refusal::numbered(number)),
        }
    }

    /// Whether the limit has elapsed at a time. The question alters nothing.
    ///
    /// ```
    /// use snjofrask::{Channel, Refusal, Wait};
    ///
    /// let wait = Wait::begin(Channel { interface: 0, cid: [0, 0, 0, 1] }, 100, 30_000)?;
    /// assert_eq!(wait.is_elapsed(30_099), Ok(false));
    /// assert_eq!(wait.is_elapsed(30_100), Ok(true));
    /// assert_eq!(wait.is_elapsed(99), Err(Refusal::Time));
    /// # Ok::<(), Refusal>(())
    /// ```
    pub fn is_elapsed(&self, time_ms: u64) -> Result<bool, Refusal> {
        running(raw::wait_elapsed(&self.0, time_ms))
    }

    /// A step: what the sensor said, and a packet if one came. The time is the one at which the caller began to wait for them,
    /// when it asked [`is_elapsed`](Self::is_elapsed).
    ///
    /// Once the limit has elapsed nothing else is looked at. CANCEL on the request's own channel ends the wait, whatever the
    /// sensor said; another packet there is dropped. Any other channel is told that it is busy. Without a touch so far a
    /// KEEPALIVE is due. A time that goes back is refused.
    ///
    /// ```
    /// use snjofrask::{Channel, CtapHid, CtapHidCommand, Ending, Message, RecvStatus, Refusal, UserPresence, Wait};
    ///
    /// let own = Channel { interface: 0, cid: [0, 0, 0, 1] };
    /// let mut wait = Wait::begin(own, 0, 30_000)?;
    /// let packet = |cid, cmd| CtapHid::split_message(Message { cid, cmd, payload: &[] }).next().unwrap();
    ///
    /// let ping = packet([0, 0, 0, 2], CtapHidCommand::Ping);
    /// let responded = wait.respond_busy(0, UserPresence::Timeout, RecvStatus::Received(5), &ping)?;
    /// assert_eq!(responded.ending, Ending::NotYet);
    /// let mut packets = responded.packets();
    /// let (interface, busy) = packets.next().unwrap();
    /// assert_eq!((interface, &busy[..8]), (5, &[0, 0, 0, 2, 0xBF, 0, 1, 6][..]));
    /// let (interface, keepalive) = packets.next().unwrap();
    /// assert_eq!((interface, &keepalive[..8]), (0, &[0, 0, 0, 1, 0xBB, 0, 1, 2][..]));
    /// assert_eq!(packets.next(), None);
    ///
    /// let cancel = packet(own.cid, CtapHidCommand::Cancel);
    /// let responded = wait.respond_busy(100, UserPresence::Touched, RecvStatus::Received(0), &cancel)?;
    /// assert_eq!(responded.ending, Ending::Canceled);
    /// assert_eq!(responded.packets().next(), None);
    /// # Ok::<(), Refusal>(())
    /// ```
    pub fn respond_busy(
        &mut self,
        time_ms: u64,
        presence: UserPresence,
        received: RecvStatus,
        packet: &HidPacket,
    ) -> Result<Responded, Refusal> {
        let (presence, error) = match presence {
            UserPresence::Touched => (presence::TOUCHED, 0),
            UserPresence::Timeout => (presence::TIMEOUT, 0),
            UserPresence::Failed(error) => (presence::FAILED, error),
        };
        let (arrived, interface) = match received {
            RecvStatus::Timeout => (false, 0),
            RecvStatus::Received(interface) => (true, interface),
        };
        let outcome = raw::wait_step(
            &mut self.0,
            time_ms,
            presence,
            error,
            arrived,
            interface,
            packet,
        );
        Ok(Responded {
            sent: outcome.sent,
            count: outcome.count,
            ending: match outcome.ending {
                ending::REFUSED => return Err(Refusal::numbered(outcome.refusal)),
                ending::NOT_YET => Ending::NotYet,
                ending::TOUCHED => Ending::Touched,
                ending::CANCELED => Ending::Canceled,
                ending::FAILED => Ending::Failed(outcome.error),
                _ => Ending::TimedOut,
            },
        })
    }
}

/// What [`check_user_presence`] asks of the key: its clock, its sensor, its interfaces.
pub trait Env {
    /// What can go wrong there.
    type Error;

    /// The time, in whole milliseconds from any beginning. It doesn't go back.
    fn now_ms(&mut self) -> u64;

    /// A wait begins: called first, and once.
    fn check_init(&mut self);

    /// Waits for a touch or a packet, at most `timeout_ms`. A packet that comes is put into `packet`. An error ends the wait.
    fn wait_with_timeout(
        &mut self,
        packet: &mut HidPacket,
        timeout_ms: u32,
    ) -> Result<(UserPresence, RecvStatus), Self::Error>;

    /// Sends a packet on an interface. An error ends the wait where the packet is a KEEPALIVE, and else is passed over.
    fn send(&mut self, packet: &HidPacket, interface: u32) -> Result<(), Self::Error>;

    /// The wait has ended: called last, and once, whatever has become of it.
    fn check_complete(&mut self);
}

/// Why a wait came to no ending.
#[derive(Clone, Copy, Debug, PartialEq, Eq)]
pub enum UserPresenceError<E> {
    /// The clock went back, or is above [`LAST_TIME_MS`](crate::LAST_TIME_MS).
    Refused(Refusal),
    /// [`Env::wait_with_timeout`] failed, or [`Env::send`] of a KEEPALIVE.
    Env(E),
}

impl<E> From<Refusal> for UserPresenceError<E> {
    fn from(refusal: Refusal) -> Self {
        UserPresenceError::Refused(refusal)
    }
}

impl<E: core::fmt::Display> core::fmt::Display for UserPresenceError<E> {
    fn fmt(&self, f: &mut core::fmt::Formatter<'_>) -> core::fmt::Result {
        match self {
            UserPresenceError::Refused(refusal) => refusal.fmt(f),
            UserPresenceError::Env(error) => error.fmt(f),
        }
    }
}

impl<E: core::error::Error> core::error::Error for UserPresenceError<E> {}

/// Waits for a touch, for a request on a channel, at most `limit_ms`; at least every `delay_ms` a KEEPALIVE is sent. OpenSK has
/// 30,000 and 100 there. It returns how the wait has ended, which is never [`Ending::NotYet`].
///
/// ```
/// use snjofrask::{Channel, Ending, Env, HidPacket, RecvStatus, Refusal, UserPresence, UserPresenceError, check_user_presence};
///
/// /// It is touched at a time. No packet comes.
/// struct Key { now_ms: u64, touched_ms: u64, sent: usize }
///
/// impl Env for Key {
///     type Error = ();
///     fn now_ms(&mut self) -> u64 {
///         self.now_ms
///     }
///     fn check_init(&mut self) {}
///     fn wait_with_timeout(&mut self, _: &mut HidPacket, timeout_ms: u32) -> Result<(UserPresence, RecvStatus), ()> {
///         self.now_ms += u64::from(timeout_ms);
///         let is_touched = self.now_ms >= self.touched_ms;
///         let presence = if is_touched { UserPresence::Touched } else { UserPresence::Timeout };
///         Ok((presence, RecvStatus::Timeout))
///     }
///     fn send(&mut self, packet: &HidPacket, interface: u32) -> Result<(), ()> {
///         assert_eq!((interface, &packet[..8]), (0, &[0, 0, 0, 1, 0xBB, 0, 1, 2][..]));
///         self.sent += 1;
///         Ok(())
///     }
///     fn check_complete(&mut self) {}
/// }
///
/// let channel = Channel { interface: 0, cid: [0, 0, 0, 1] };
/// let mut key = Key { now_ms: 0, touched_ms: 250, sent: 0 };
/// assert_eq!(check_user_presence(&mut key, channel, 30_000, 100), Ok(Ending::Touched));
/// assert_eq!(key.sent, 2);
///
/// let mut key = Key { now_ms: 0, touched_ms: 50_000, sent: 0 };
/// assert_eq!(check_user_presence(&mut key, channel, 30_000, 100), Ok(Ending::TimedOut));
/// assert_eq!((key.now_ms, key.sent), (30_000, 300));
///
/// let mut key = Key { now_ms: u64::MAX, touched_ms: 0, sent: 0 };
/// let refused = Err(UserPresenceError::Refused(Refusal::Time));
/// assert_eq!(check_user_presence(&mut key, channel, 30_000, 100), refused);
/// ```
pub fn check_user_presence<E: Env>(
    env: &mut E,
    channel: Channel,
    limit_ms: u32,
    delay_ms: u32,
) -> Result<Ending, UserPresenceError<E::Error>> {
    env.check_init();
    let ended = wait_for_touch(env, channel, limit_ms, delay_ms);
    env.check_complete();
    ended
}

fn wait_for_touch<E: Env>(
    env: &mut E,
    channel: Channel,
    limit_ms: u32,
    delay_ms: u32,
) -> Result<Ending, UserPresenceError<E::Error>> {
    let mut wait = Wait::begin(channel, env.now_ms(), limit_ms)?;
    loop {
        let time_ms = env.now_ms();
        if wait.is_elapsed(time_ms)? {
            return Ok(Ending::TimedOut);
        }
        let mut packet = [0; 64];
        let (presence, received) = env
            .wait_with_timeout(&mut packet, delay_ms)
            .map_err(UserPresenceError::Env)?;
        let responded = wait.respond_busy(time_ms, presence, received, &packet)?;
        for sent in responded.sent() {
            let result = env.send(&packet_of(sent), sent.interface);
            // another channel's trouble is none of this one's
            if sent.cmd == CtapHidCommand::Keepalive.number() {
                result.map_err(UserPresenceError::Env)?;
            }
        }
        if responded.ending != Ending::NotYet {
            return Ok(responded.ending);
        }
    }
}
