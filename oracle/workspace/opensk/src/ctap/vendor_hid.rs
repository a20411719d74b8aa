// Shim. OpenSK's vendor_hid.rs is not among the sources. Here stands what lib.rs asks of it: the real CtapHid, with nothing above it.
use crate::Ctap;
use crate::ctap::CtapState;
use crate::ctap::hid::{CtapHid, HidPacket, HidPacketIterator, Message};
use crate::ctap::main_hid::MainHid;
use crate::env::Env;

pub struct VendorHid<E: Env> {
    pub hid: CtapHid<E>,
    /// What the transport has answered, which is not sent.
    pub answer: Option<Message>,
}

impl<E: Env> Default for VendorHid<E> {
    fn default() -> Self {
        let msg = match cfg!(feature = "ctap1") {
            true => 0,
            false => CtapHid::<E>::CAPABILITY_NMSG,
        };
        let capabilities = CtapHid::<E>::CAPABILITY_WINK | CtapHid::<E>::CAPABILITY_CBOR | msg;
        VendorHid {
            hid: CtapHid::new(capabilities),
            answer: None,
        }
    }
}

impl<E: Env> VendorHid<E> {
    pub fn process_hid_packet(
        &mut self,
        env: &mut E,
        packet: &HidPacket,
        is_transport_disabled: bool,
        _ctap_state: &mut CtapState<E>,
    ) -> HidPacketIterator {
        self.answer = self.hid.parse_packet(env, packet, is_transport_disabled);
        HidPacketIterator::none()
    }

    pub fn has_channel_lock(&mut self, env: &mut E) -> bool {
        self.hid.has_channel_lock(env)
    }
}

impl<E: Env> Ctap<E> {
    /// A window on the private fields of the real lib.rs.
    pub fn oracle_parts(&mut self) -> (&mut E, &mut MainHid<E>, &mut VendorHid<E>) {
        (&mut self.env, &mut self.hid, &mut self.vendor_hid)
    }
}
