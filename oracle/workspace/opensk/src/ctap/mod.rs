// Shim. The real ctap/mod.rs is the authenticator above the transport and needs crates that are
// not at hand. Here stands what the transport and the real lib.rs ask of it.
pub mod hid;
pub mod main_hid;
pub mod status_code;
#[cfg(feature = "vendor_hid")]
pub mod vendor_hid;
#[cfg(feature = "vendor_hid")]
mod wait;

use self::hid::CtapHidCommand;
#[cfg(feature = "vendor_hid")]
pub use self::wait::*;
use crate::env::Env;
use alloc::vec::Vec;
use core::marker::PhantomData;

/// With vendor_hid this and the next are the real ones.
#[cfg(not(feature = "vendor_hid"))]
pub enum Channel {
    MainHid(hid::ChannelID),
}

#[cfg(not(feature = "vendor_hid"))]
pub enum Transport {
    MainHid,
}

/// Stands for the authenticator: keeps what the transport hands over, and answers with `reply`.
pub struct CtapState<E: Env> {
    pub handed: Vec<(CtapHidCommand, Vec<u8>)>,
    pub reply: Vec<u8>,
    env: PhantomData<E>,
}

impl<E: Env> CtapState<E> {
    pub fn new(_env: &mut E) -> Self {
        CtapState {
            handed: Vec::new(),
            reply: Vec::new(),
            env: PhantomData,
        }
    }

    pub fn process_command(&mut self, _env: &mut E, payload: &[u8], _channel: Channel) -> Vec<u8> {
        self.answer(CtapHidCommand::Cbor, payload)
    }

    // lib.rs hands these on, and nobody calls them

    pub fn can_sleep(&mut self, _env: &mut E) -> bool {
        unreachable!()
    }

    #[cfg(feature = "ctap1")]
    pub fn u2f_grant_user_presence(&mut self, _env: &mut E) {
        unreachable!()
    }

    #[cfg(feature = "ctap1")]
    pub fn u2f_needs_user_presence(&mut self, _env: &mut E) -> bool {
        unreachable!()
    }

    fn answer(&mut self, cmd: CtapHidCommand, payload: &[u8]) -> Vec<u8> {
        self.handed.push((cmd, payload.to_vec()));
        self.reply.clone()
    }
}

/// customization.rs names these two and never looks inside.
pub mod data_formats {
    #[derive(Clone, Copy)]
    pub struct CredentialProtectionPolicy;

    #[derive(Clone, Copy)]
    pub struct EnterpriseAttestationMode;
}

#[cfg(feature = "ctap1")]
mod ctap1 {
    use super::{CtapHidCommand, CtapState};
    use crate::env::Env;
    use alloc::vec::Vec;

    pub struct Ctap1StatusCode(u16);

    impl Ctap1StatusCode {
        pub const SW_SUCCESS: Self = Ctap1StatusCode(0x9000);
    }

    impl From<Ctap1StatusCode> for u16 {
        fn from(code: Ctap1StatusCode) -> u16 {
            code.0
        }
    }

    pub struct Ctap1Command;

    impl Ctap1Command {
        pub fn process_command<E: Env>(
            _env: &mut E,
            payload: &[u8],
            state: &mut CtapState<E>,
        ) -> Result<Vec<u8>, Ctap1StatusCode> {
            Ok(state.answer(CtapHidCommand::Msg, payload))
        }
    }
}
