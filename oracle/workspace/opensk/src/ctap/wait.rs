// What is cut out of the real ctap/mod.rs at build time (build.rs), with what it names of that file's imports, and a way to the
// private step.
use super::hid::{
    ChannelID, CtapHid, CtapHidCommand, HidPacketIterator, KeepaliveStatus, ProcessedPacket,
};
use super::status_code::{Ctap2StatusCode, CtapResult};
use crate::api::clock::Clock;
use crate::api::connection::{HidConnection, RecvStatus, UsbEndpoint};
use crate::api::user_presence::{UserPresence, UserPresenceError};
use crate::env::Env;

include!(concat!(env!("OUT_DIR"), "/ctap_mod.rs"));

pub fn oracle_wait_and_respond_busy<E: Env>(env: &mut E, channel: Channel) -> CtapResult<()> {
    wait_and_respond_busy(env, channel)
}
