//! The library's device, with one interface or two.
use crate::label;
use snjofrask::{HidPacket, Key, LARGEST_PAYLOAD, MainHid, Processed, Refusal, Transport};

/// A message buffer for each interface.
pub type Buffers = [[u8; LARGEST_PAYLOAD]; 2];

/// The two interfaces, each at its number, and what is put before what is said of it.
const INTERFACES: [(Transport, &str); 2] = [
    (Transport::MainHid, "main: "),
    (Transport::VendorHid, "vendor: "),
];

pub enum Device<'b> {
    One(MainHid<'b>),
    Two(Key<'b>),
}

impl<'b> Device<'b> {
    /// One with U2F, which knows the label's command.
    pub fn new([main, vendor]: &'b mut Buffers, has_vendor: bool) -> Result<Device<'b>, Refusal> {
        let commands = &[label::COMMAND];
        Ok(match has_vendor {
            false => Device::One(MainHid::new(main, true, commands)?),
            true => Device::Two(Key::new(main, vendor, true, commands)?),
        })
    }

    pub fn process_hid_packet(
        &mut self,
        time_ms: u64,
        packet: &HidPacket,
        interface: u32,
    ) -> Result<Processed<'_>, Refusal> {
        match self {
            Device::One(device) => device.process_hid_packet(time_ms, packet, false),
            Device::Two(key) => {
                let (transport, _) = INTERFACES[interface as usize];
                key.process_hid_packet(time_ms, packet, transport)
            }
        }
    }

    /// What is put before what is said of an interface: nothing where it is the only one.
    pub fn name(&self, interface: u32) -> &'static str {
        match self {
            Device::One(_) => "",
            Device::Two(_) => INTERFACES[interface as usize].1,
        }
    }

    /// How many packets are still due, with the name of the interface. One that needs none is left out.
    pub fn still_due(&self) -> Vec<(&'static str, u16)> {
        let mut still_due = match self {
            Device::One(device) => vec![("", device.still_due())],
            Device::Two(key) => INTERFACES
                .map(|(transport, name)| (name, key.still_due(transport)))
                .to_vec(),
        };
        still_due.retain(|(_, count)| *count > 0);
        still_due
    }
}
