//! OpenSK's key: its `Ctap`, which has both interfaces. What it has not is check 8 on vendor.
use crate::allowance;
use crate::compare::U2F;
use crate::pair::{Setup, Step};
use host::HostEnv;
use opensk::ctap::hid::{
    CtapHid, CtapHidCommand, CtapHidError, HidPacket, HidPacketIterator, Message,
};
use opensk::{Ctap, Transport};

pub struct Theirs {
    ctap: Ctap<HostEnv>,
    maxima: [usize; 2],
}

/// What it does with a packet.
pub struct Said {
    pub sent: HidPacketIterator,
    pub handed: Vec<(CtapHidCommand, Vec<u8>)>,
    /// It was given another packet.
    pub was_allowed_for: bool,
}

impl Theirs {
    pub fn new(setup: &Setup) -> Self {
        let mut ctap = Ctap::new(HostEnv::new(0));
        let (_, main, vendor) = ctap.oracle_parts();
        let [of_main, of_vendor] = setup.counts;
        main.oracle_hid().oracle_set_allocated(of_main);
        vendor.hid.oracle_set_allocated(of_vendor);
        let maxima = setup.settings.maxima;
        Theirs { ctap, maxima }
    }

    /// A packet on an interface. The authenticator answers `reply`.
    pub fn step(&mut self, step: &Step, reply: &[u8]) -> Said {
        let Step { on, time, .. } = *step;
        let (env, ..) = self.ctap.oracle_parts();
        env.now.0 = time;
        // OpenSK has one for both
        env.customization.max_msg_size = self.maxima[on as usize];
        let instead = self.instead(on, &step.packet);
        let packet = instead.as_ref().unwrap_or(&step.packet);
        self.ctap.state().reply = reply.to_vec();
        let sent = self.ctap.process_hid_packet(packet, on);
        let handed = std::mem::take(&mut self.ctap.state().handed);
        let (_, _, vendor) = self.ctap.oracle_parts();
        let (sent, handed) = match vendor.answer.take() {
            Some(message) => above_vendor(message, reply),
            None => (sent, handed),
        };
        Said {
            sent,
            handed,
            was_allowed_for: instead.is_some(),
        }
    }

    /// What is given in a packet's place, with the flag that lib.rs will find.
    fn instead(&mut self, on: Transport, packet: &HidPacket) -> Option<HidPacket> {
        let (env, main, vendor) = self.ctap.oracle_parts();
        let (is_disabled, hid) = match on {
            Transport::MainHid => (vendor.has_channel_lock(env), &*main.oracle_hid()),
            Transport::VendorHid => (main.has_channel_lock(env), &vendor.hid),
        };
        allowance::instead(hid, env, is_disabled, packet)
    }

    /// Whether main's lock, vendor's and the wink run now.
    pub fn questions(&mut self) -> [u8; 3] {
        let (env, main, vendor) = self.ctap.oracle_parts();
        let locks = [main.has_channel_lock(env), vendor.has_channel_lock(env)];
        [locks[0], locks[1], main.should_wink(env)].map(|runs| runs as u8)
    }

    /// The transports of main and of vendor, and when the wink ends.
    pub fn state(&mut self) -> ([&CtapHid<HostEnv>; 2], Option<u64>) {
        let (_, main, vendor) = self.ctap.oracle_parts();
        let wink = main.oracle_wink().0;
        ([main.oracle_hid(), &vendor.hid], wink)
    }
}

/// Check 8 on vendor, as C-17 has it: OpenSK's vendor_hid.rs is not at hand. Tells what is sent, and what is handed over.
fn above_vendor(
    message: Message,
    reply: &[u8],
) -> (HidPacketIterator, Vec<(CtapHidCommand, Vec<u8>)>) {
    let cid = message.cid;
    let mut handed = vec![];
    let is_known = match message.cmd {
        CtapHidCommand::Wink => false,
        CtapHidCommand::Msg => U2F,
        _ => true,
    };
    let said = match message.cmd {
        _ if !is_known => CtapHid::<HostEnv>::error_message(cid, CtapHidError::InvalidCmd),
        cmd @ (CtapHidCommand::Msg | CtapHidCommand::Cbor) => {
            handed.push((cmd, message.payload));
            let mut payload = reply.to_vec();
            // the status word, as on main
            if cmd == CtapHidCommand::Msg {
                payload.extend([0x90, 0]);
            }
            Message { cid, cmd, payload }
        }
        _ => message,
    };
    (CtapHid::<HostEnv>::split_message(said), handed)
}
