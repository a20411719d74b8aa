//! The key that waits, for OpenSK and for ours: clock, sensor and interfaces are one here, so that the order of all that is asked of
//! them is seen. What comes is told by a script.
use crate::definition::LAST_TIME;
use crate::traffic::Maker;
use host::{Timer, Unused};
use opensk::api::clock::Clock;
use opensk::api::connection::{HidConnection, RecvStatus, UsbEndpoint};
use opensk::api::customization::{CustomizationImpl, DEFAULT_CUSTOMIZATION};
use opensk::api::user_presence::{UserPresence, UserPresenceError, UserPresenceWaitResult};
use opensk::ctap::hid::HidPacket;
use opensk::ctap::status_code::{Ctap2StatusCode, CtapResult};
use opensk::ctap::{KEEPALIVE_DELAY_MS, TOUCH_TIMEOUT_MS};
use opensk::env::Env;

/// What OpenSK has for limit and delay.
pub const LIMIT: u64 = 30_000;
pub const DELAY: u32 = 100;
const _: () = assert!(TOUCH_TIMEOUT_MS == LIMIT as usize && KEEPALIVE_DELAY_MS == DELAY as usize);

/// What the sensor says.
#[derive(Clone, Copy, Debug, PartialEq, Eq)]
pub enum Presence {
    Touched,
    Timeout,
    Declined,
    Canceled,
}

impl Presence {
    pub fn result(self) -> Result<(), UserPresenceError> {
        match self {
            Presence::Touched => Ok(()),
            Presence::Timeout => Err(UserPresenceError::Timeout),
            Presence::Declined => Err(UserPresenceError::Declined),
            Presence::Canceled => Err(UserPresenceError::Canceled),
        }
    }

    /// The number that OpenSK has for it.
    pub fn number(self) -> u8 {
        code(self.result().map_err(Ctap2StatusCode::from))
    }
}

/// A result of OpenSK's, as the byte that its host is told.
pub fn code(result: CtapResult<()>) -> u8 {
    match result {
        Ok(()) => Ctap2StatusCode::CTAP2_OK as u8,
        Err(code) => code as u8,
    }
}

/// What fails in the key itself.
#[derive(Clone, Copy, Debug, PartialEq, Eq)]
pub enum Trouble {
    None,
    Waiting(Ctap2StatusCode),
    Sending(Ctap2StatusCode),
}

/// What one wait for sensor and packet brings, and how long it begins after the one before.
#[derive(Clone, Copy, Debug)]
pub struct Moment {
    pub gap: u64,
    pub presence: Presence,
    pub arrived: Option<(UsbEndpoint, HidPacket)>,
    pub trouble: Trouble,
}

/// What is asked of the key.
#[derive(Clone, Copy, Debug, PartialEq, Eq)]
pub enum Event {
    Init,
    Asked(usize),
    Sent(UsbEndpoint, HidPacket),
    Complete,
}

pub struct Key {
    pub now: u64,
    deadline: u64,
    /// What comes. Where it is used up more is made, or else the time is over.
    pub moments: Vec<Moment>,
    pub maker: Option<Maker>,
    used: usize,
    coming: Moment,
    sending: Option<Ctap2StatusCode>,
    pub events: Vec<Event>,
    pub asked: usize,
    /// How often it may be asked before it fails.
    pub most: usize,
    /// The numbers of both interfaces, for ours.
    pub interfaces: [u32; 2],
    has_begun: bool,
    customization: CustomizationImpl,
}

const NOTHING: Moment = Moment {
    gap: 0,
    presence: Presence::Timeout,
    arrived: None,
    trouble: Trouble::None,
};

impl Key {
    pub fn new() -> Self {
        Key {
            now: 0,
            deadline: 0,
            moments: vec![],
            maker: None,
            used: 0,
            coming: NOTHING,
            sending: None,
            events: vec![],
            asked: 0,
            most: 0,
            interfaces: [1, 2],
            has_begun: false,
            customization: DEFAULT_CUSTOMIZATION,
        }
    }

    /// As it is before a wait that begins at a time.
    pub fn reset(&mut self, start: u64, most: usize) {
        self.now = start;
        self.deadline = start + LIMIT;
        self.used = 0;
        self.sending = None;
        self.events.clear();
        self.asked = 0;
        self.most = most;
        self.has_begun = false;
    }

    /// For a step alone: what it meets.
    pub fn meet(&mut self, moment: Moment) {
        self.reset(0, 1);
        self.moments.clear();
        self.coming = moment;
    }

    /// The time; from the first look at it on, time passes.
    pub fn look(&mut self) -> u64 {
        let now = self.now;
        if !self.has_begun {
            self.has_begun = true;
            self.pass();
        }
        now
    }

    /// Goes on to the next moment.
    fn pass(&mut self) {
        if self.used == self.moments.len() {
            let over = Moment {
                // more where nobody ends it
                gap: self.deadline.saturating_sub(self.now).max(1),
                ..NOTHING
            };
            let made = self
                .maker
                .as_mut()
                .map(|m| m.moment(self.now, self.deadline));
            self.moments.push(made.unwrap_or(over));
        }
        self.coming = self.moments[self.used];
        self.used += 1;
        self.now = LAST_TIME.min(self.now + self.coming.gap);
    }

    pub fn init(&mut self) {
        self.events.push(Event::Init);
    }

    pub fn wait(
        &mut self,
        packet: &mut HidPacket,
        ms: usize,
    ) -> Result<(Presence, Option<UsbEndpoint>), Ctap2StatusCode> {
        self.events.push(Event::Asked(ms));
        self.asked += 1;
        let moment = self.coming;
        self.pass();
        if self.asked > self.most {
            return Err(Ctap2StatusCode::CTAP2_ERR_VENDOR_INTERNAL_ERROR);
        }
        self.sending = None;
        match moment.trouble {
            Trouble::None => (),
            Trouble::Waiting(code) => return Err(code),
            Trouble::Sending(code) => self.sending = Some(code),
        }
        let endpoint = moment.arrived.map(|(endpoint, arrived)| {
            *packet = arrived;
            endpoint
        });
        Ok((moment.presence, endpoint))
    }

    /// What is sent is seen, also where it then fails.
    pub fn send(&mut self, packet: &HidPacket, endpoint: UsbEndpoint) -> CtapResult<()> {
        self.events.push(Event::Sent(endpoint, *packet));
        self.sending.map_or(Ok(()), Err)
    }

    pub fn complete(&mut self) {
        self.events.push(Event::Complete);
    }

    pub fn number(&self, endpoint: UsbEndpoint) -> u32 {
        self.interfaces[endpoint as usize - 1]
    }

    pub fn endpoint(&self, number: u32) -> Option<UsbEndpoint> {
        let at = self.interfaces.iter().position(|n| *n == number)?;
        UsbEndpoint::try_from(at + 1).ok()
    }
}

impl Clock for Key {
    type Timer = Timer;

    fn make_timer(&mut self, milliseconds: usize) -> Timer {
        Timer(Some(self.look() + milliseconds as u64))
    }

    fn is_elapsed(&mut self, timer: &Timer) -> bool {
        timer.0.is_none_or(|deadline| deadline <= self.now)
    }
}

impl UserPresence for Key {
    fn check_init(&mut self) {
        self.init();
    }

    fn wait_with_timeout(&mut self, packet: &mut HidPacket, ms: usize) -> UserPresenceWaitResult {
        let (presence, endpoint) = self.wait(packet, ms)?;
        let received = endpoint.map_or(RecvStatus::Timeout, RecvStatus::Received);
        Ok((presence.result(), received))
    }

    fn check_complete(&mut self) {
        self.complete();
    }
}

impl HidConnection for Key {
    fn send(&mut self, packet: &HidPacket, endpoint: UsbEndpoint) -> CtapResult<()> {
        self.send(packet, endpoint)
    }

    fn recv(&mut self, _: &mut HidPacket, _: usize) -> CtapResult<RecvStatus> {
        unreachable!()
    }
}

impl Env for Key {
    type Clock = Key;
    type Customization = CustomizationImpl;
    type Rng = Unused;
    type UserPresence = Key;
    type Persist = Unused;
    type KeyStore = Unused;
    type Write = String;
    type HidConnection = Key;
    type Crypto = Unused;

    fn clock(&mut self) -> &mut Key {
        self
    }

    fn customization(&self) -> &CustomizationImpl {
        &self.customization
    }

    fn rng(&mut self) -> &mut Unused {
        unreachable!()
    }

    fn user_presence(&mut self) -> &mut Key {
        self
    }

    fn persist(&mut self) -> &mut Unused {
        unreachable!()
    }

    fn key_store(&mut self) -> &mut Unused {
        unreachable!()
    }

    fn write(&mut self) -> String {
        unreachable!()
    }

    fn hid_connection(&mut self) -> &mut Key {
        self
    }

    fn boots_after_soft_reset(&self) -> bool {
        unreachable!()
    }
}

/// What our bindings ask of a key.
impl snjofrask::Env for Key {
    type Error = Ctap2StatusCode;

    fn now_ms(&mut self) -> u64 {
        self.look()
    }

    fn check_init(&mut self) {
        self.init();
    }

    fn wait_with_timeout(
        &mut self,
        packet: &mut HidPacket,
        timeout_ms: u32,
    ) -> Result<(snjofrask::UserPresence, snjofrask::RecvStatus), Ctap2StatusCode> {
        let (presence, endpoint) = self.wait(packet, timeout_ms as usize)?;
        let presence = match presence {
            Presence::Touched => snjofrask::UserPresence::Touched,
            Presence::Timeout => snjofrask::UserPresence::Timeout,
            failed => snjofrask::UserPresence::Failed(failed.number()),
        };
        let received = match endpoint {
            None => snjofrask::RecvStatus::Timeout,
            Some(endpoint) => snjofrask::RecvStatus::Received(self.number(endpoint)),
        };
        Ok((presence, received))
    }

    fn send(&mut self, packet: &HidPacket, interface: u32) -> Result<(), Ctap2StatusCode> {
        // none of the key's is no place to send to
        let none = Ctap2StatusCode::CTAP2_ERR_VENDOR_INTERNAL_ERROR;
        let endpoint = self.endpoint(interface).ok_or(none)?;
        self.send(packet, endpoint)
    }

    fn check_complete(&mut self) {
        self.complete();
    }
}
