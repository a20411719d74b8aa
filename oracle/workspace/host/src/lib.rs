//! The environment that OpenSK's transport runs in here: time set from outside, and the largest
//! message it accepts. The transport calls nothing else. It needs no std, so that speed/cortex-m4 can have it too.
#![no_std]

extern crate alloc;

use alloc::string::String;
use opensk::api::clock::Clock;
use opensk::api::connection::{HidConnection, RecvStatus, UsbEndpoint};
use opensk::api::crypto::{Crypto, ec_signing::Ecdsa, ecdh::Ecdh};
use opensk::api::customization::{CustomizationImpl, DEFAULT_CUSTOMIZATION};
use opensk::api::key_store::KeyStore;
use opensk::api::persist::Persist;
use opensk::api::rng::Rng;
use opensk::api::user_presence::{UserPresence, UserPresenceWaitResult};
use opensk::ctap::status_code::CtapResult;
use opensk::env::Env;

/// A deadline in milliseconds. OpenSK wants a default timer to have elapsed, hence the option.
#[derive(Clone, Copy, Debug, Default, PartialEq, Eq)]
pub struct Timer(pub Option<u64>);

/// The time in milliseconds.
pub struct Now(pub u64);

impl Clock for Now {
    type Timer = Timer;

    fn make_timer(&mut self, milliseconds: usize) -> Timer {
        Timer(Some(self.0 + milliseconds as u64))
    }

    fn is_elapsed(&mut self, timer: &Timer) -> bool {
        timer.0.is_none_or(|deadline| deadline <= self.0)
    }
}

pub struct HostEnv {
    pub now: Now,
    pub customization: CustomizationImpl,
}

impl HostEnv {
    pub fn new(max_msg_size: usize) -> Self {
        HostEnv {
            now: Now(0),
            customization: CustomizationImpl {
                max_msg_size,
                ..DEFAULT_CUSTOMIZATION
            },
        }
    }
}

impl Env for HostEnv {
    type Clock = Now;
    type Customization = CustomizationImpl;
    type Rng = Unused;
    type UserPresence = Unused;
    type Persist = Unused;
    type KeyStore = Unused;
    type Write = String;
    type HidConnection = Unused;
    type Crypto = Unused;

    fn clock(&mut self) -> &mut Now {
        &mut self.now
    }

    fn customization(&self) -> &CustomizationImpl {
        &self.customization
    }

    fn rng(&mut self) -> &mut Unused {
        unreachable!()
    }

    fn user_presence(&mut self) -> &mut Unused {
        unreachable!()
    }

    fn persist(&mut self) -> &mut Unused {
        unreachable!()
    }

    fn key_store(&mut self) -> &mut Unused {
        unreachable!()
    }

    fn write(&mut self) -> String {
        unreachable!()
    }

    fn hid_connection(&mut self) -> &mut Unused {
        unreachable!()
    }

    fn boots_after_soft_reset(&self) -> bool {
        unreachable!()
    }
}

/// Stands for what Env asks for and the transport never calls. There is no value of it.
pub enum Unused {}

impl Rng for Unused {}

impl Persist for Unused {}

impl KeyStore for Unused {}

impl UserPresence for Unused {
    fn check_init(&mut self) {
        match *self {}
    }

    fn wait_with_timeout(&mut self, _: &mut [u8; 64], _: usize) -> UserPresenceWaitResult {
        match *self {}
    }

    fn check_complete(&mut self) {
        match *self {}
    }
}

impl HidConnection for Unused {
    fn send(&mut self, _: &[u8; 64], _: UsbEndpoint) -> CtapResult<()> {
        match *self {}
    }

    fn recv(&mut self, _: &mut [u8; 64], _: usize) -> CtapResult<RecvStatus> {
        match *self {}
    }
}

impl Ecdh for Unused {
    type SecretKey = ();
    type PublicKey = ();
}

impl Ecdsa for Unused {
    type SecretKey = ();
    type PublicKey = ();
    type Signature = ();
}

impl Crypto for Unused {
    type Aes256 = ();
    type Ecdh = Unused;
    type Ecdsa = Unused;
    type Sha256 = ();
    type Hmac256 = ();
    type Hkdf256 = ();
}
