//! Messages and their parts.

/// A packet.
pub type HidPacket = [u8; 64];

/// A channel, as it stands in a packet.
pub type ChannelID = [u8; 4];

/// The channel on which a host asks for one of its own.
pub const CHANNEL_BROADCAST: ChannelID = [0xFF; 4];

/// The commands, in the order of CTAP 2.1, section 11.2.9.
#[derive(Clone, Copy, Debug, PartialEq, Eq)]
pub enum CtapHidCommand {
    /// U2F.
    Msg,
    /// CTAP2.
    Cbor,
    /// Asks for a channel, or gets one in step again.
    Init,
    /// Echoed.
    Ping,
    /// Gives a request up.
    Cancel,
    /// An error, and any other number.
    Error,
    /// Not done yet.
    Keepalive,
    /// Asks for a visible sign.
    Wink,
    /// Keeps other channels out for some seconds.
    Lock,
    /// One of the vendor's. A device knows those that it was set up with.
    Vendor(VendorCommand),
}

impl CtapHidCommand {
    /// The lowest number of a vendor command.
    pub const VENDOR_FIRST: u8 = 0x40;
    /// The highest.
    pub const VENDOR_LAST: u8 = 0x7F;

    /// Its number, below 128.
    ///
    /// ```
    /// use snjofrask::CtapHidCommand;
    ///
    /// assert_eq!(CtapHidCommand::Cbor.number(), 0x10);
    /// assert_eq!(CtapHidCommand::from(0x40).number(), 0x40);
    /// ```
    pub const fn number(self) -> u8 {
        match self {
            CtapHidCommand::Msg => 0x03,
            CtapHidCommand::Cbor => 0x10,
            CtapHidCommand::Init => 0x06,
            CtapHidCommand::Ping => 0x01,
            CtapHidCommand::Cancel => 0x11,
            CtapHidCommand::Error => 0x3F,
            CtapHidCommand::Keepalive => 0x3B,
            CtapHidCommand::Wink => 0x08,
            CtapHidCommand::Lock => 0x04,
            CtapHidCommand::Vendor(vendor) => vendor.number(),
        }
    }
}

impl From<u8> for CtapHidCommand {
    fn from(cmd: u8) -> Self {
        match cmd {
            0x03 => CtapHidCommand::Msg,
            0x10 => CtapHidCommand::Cbor,
            0x06 => CtapHidCommand::Init,
            0x01 => CtapHidCommand::Ping,
            0x11 => CtapHidCommand::Cancel,
            0x3F => CtapHidCommand::Error,
            0x3B => CtapHidCommand::Keepalive,
            0x08 => CtapHidCommand::Wink,
            0x04 => CtapHidCommand::Lock,
            0x40..=0x7F => CtapHidCommand::Vendor(VendorCommand(cmd)),
            _ => CtapHidCommand::Error,
        }
    }
}

/// A vendor command, by its number. It has no other, so no message's command is above 127.
#[derive(Clone, Copy, Debug, PartialEq, Eq)]
pub struct VendorCommand(u8);

impl VendorCommand {
    /// The one with a number from [`CtapHidCommand::VENDOR_FIRST`] to [`CtapHidCommand::VENDOR_LAST`], or `None`.
    ///
    /// ```
    /// use snjofrask::{CtapHidCommand, VendorCommand};
    ///
    /// const LABEL: VendorCommand = VendorCommand::new(0x40).unwrap();
    /// assert_eq!(CtapHidCommand::from(0x40), CtapHidCommand::Vendor(LABEL));
    /// assert_eq!(VendorCommand::new(0x3F), None);
    /// assert_eq!(VendorCommand::new(0x80), None);
    /// ```
    pub const fn new(number: u8) -> Option<VendorCommand> {
        match number {
            CtapHidCommand::VENDOR_FIRST..=CtapHidCommand::VENDOR_LAST => {
                Some(VendorCommand(number))
            }
            _ => None,
        }
    }

    /// Its number.
    pub const fn number(self) -> u8 {
        self.0
    }
}

/// The errors that a device tells, in the one byte of an ERROR.
#[derive(Clone, Copy, Debug, PartialEq, Eq)]
pub enum CtapHidError {
    /// No command for this device.
    InvalidCmd = 0x01,
    /// A parameter out of its range.
    InvalidPar = 0x02,
    /// A length that the command doesn't have, or above the maximum.
    InvalidLen = 0x03,
    /// Another packet was due.
    InvalidSeq = 0x04,
    /// The message took too long.
    MsgTimeout = 0x05,
    /// Another channel has the device.
    ChannelBusy = 0x06,
    /// No such channel is allocated.
    InvalidChannel = 0x0B,
}

impl CtapHidError {
    pub(crate) fn payload(self) -> &'static [u8] {
        match self {
            CtapHidError::InvalidCmd => &[0x01],
            CtapHidError::InvalidPar => &[0x02],
            CtapHidError::InvalidLen => &[0x03],
            CtapHidError::InvalidSeq => &[0x04],
            CtapHidError::MsgTimeout => &[0x05],
            CtapHidError::ChannelBusy => &[0x06],
            CtapHidError::InvalidChannel => &[0x0B],
        }
    }
}

/// Why a device is not done yet.
#[derive(Clone, Copy, Debug, PartialEq, Eq)]
pub enum KeepaliveStatus {
    /// It works.
    Processing = 0x01,
    /// It waits for a touch.
    UpNeeded = 0x02,
}

impl KeepaliveStatus {
    pub(crate) fn payload(self) -> &'static [u8] {
        match self {
            KeepaliveStatus::Processing => &[0x01],
            KeepaliveStatus::UpNeeded => &[0x02],
        }
    }
}

/// A whole message: a request or a reply.
#[derive(Clone, Copy, Debug, PartialEq, Eq)]
pub struct Message<'a> {
    /// Its channel.
    pub cid: ChannelID,
    /// Its command.
    pub cmd: CtapHidCommand,
    /// Its bytes.
    pub payload: &'a [u8],
}

/// What a packet says, read by itself.
#[derive(Clone, Copy, Debug, PartialEq, Eq)]
pub enum ProcessedPacket<'a> {
    /// The first packet of a message.
    InitPacket {
        /// The command, below 128, as it stands in the packet.
        cmd: u8,
        /// The declared length.
        len: usize,
        /// The packet's own data.
        data: &'a [u8; 57],
    },
    /// A further packet.
    ContinuationPacket {
        /// Its number.
        seq: u8,
        /// The packet's own data.
        data: &'a [u8; 59],
    },
}

/// Why a call was refused. It has altered nothing.
#[derive(Clone, Copy, Debug, PartialEq, Eq)]
pub enum Refusal {
    /// A packet that isn't 64 bytes. No call of this crate can have one.
    PacketSize = 1,
    /// Bluetooth: a buffer below the fragment size. No other call of this crate can have a buffer that is too short.
    ShortBuffer = 2,
    /// A state that makes no sense. None that this crate makes is such.
    Unsound = 3,
    /// A time above [`LAST_TIME_MS`](crate::LAST_TIME_MS), or before an earlier one.
    Time = 4,
    /// Set-up with a buffer of more than [`LARGEST_PAYLOAD`](crate::LARGEST_PAYLOAD) bytes.
    Maximum = 5,
    /// A packet or a fragment past a message's last.
    Index = 6,
    /// A payload of more than [`LARGEST_PAYLOAD`](crate::LARGEST_PAYLOAD) bytes, or over Bluetooth of more than
    /// [`ble::LARGEST_PAYLOAD`](crate::ble::LARGEST_PAYLOAD).
    LongPayload = 7,
    // 8 is not used again: it was for a PING too long to be echoed, and no step can have one
    /// Host: a packet with a wrong number, or a first packet inside a reply.
    Sequence = 9,
    /// Host: a reply that the buffer can't hold, or a KEEPALIVE not of one byte.
    LongReply = 10,
    /// Host: not a reply to INIT, or one of fewer than 17 bytes or more than
    /// [`LARGEST_PAYLOAD`](crate::LARGEST_PAYLOAD).
    NotInit = 11,
    /// A command above 127, or one that Bluetooth doesn't have. No call of this crate can have one.
    Command = 12,
    /// Set-up with a vendor command below [`VENDOR_FIRST`](CtapHidCommand::VENDOR_FIRST) or above
    /// [`VENDOR_LAST`](CtapHidCommand::VENDOR_LAST).
    Vendor = 13,
    /// Bluetooth: a fragment size below [`ble::SMALLEST_FRAGMENT`](crate::ble::SMALLEST_FRAGMENT) or above
    /// [`ble::LARGEST_FRAGMENT`](crate::ble::LARGEST_FRAGMENT).
    FragmentSize = 14,
    /// Bluetooth: a fragment that is too short for its head, or longer than the size.
    FragmentLength = 15,
    /// Bluetooth: a fragment with a wrong number, a continuation with no message begun, or a first fragment inside one.
    FragmentNumber = 16,
    /// Bluetooth: a message that the buffer can't hold.
    LongMessage = 17,
    /// Bluetooth: more data than remains due.
    Excess = 18,
}

impl Refusal {
    // the archive gives no other number
    pub(crate) fn numbered(number: u8) -> Refusal {
        match number {
            1 => Refusal::PacketSize,
            2 => Refusal::ShortBuffer,
            4 => Refusal::Time,
            5 => Refusal::Maximum,
            6 => Refusal::Index,
            7 => Refusal::LongPayload,
            9 => Refusal::Sequence,
            10 => Refusal::LongReply,
            11 => Refusal::NotInit,
            12 => Refusal::Command,
            13 => Refusal::Vendor,
            14 => Refusal::FragmentSize,
            15 => Refusal::FragmentLength,
            16 => Refusal::FragmentNumber,
            17 => Refusal::LongMessage,
            18 => Refusal::Excess,
            _ => Refusal::Unsound,
        }
    }
}

impl core::fmt::Display for Refusal {
    fn fmt(&self, f: &mut core::fmt::Formatter<'_>) -> core::fmt::Result {
        f.write_str(match self {
            Refusal::PacketSize => "a packet that isn't 64 bytes",
            Refusal::ShortBuffer => "a buffer that is too short",
            Refusal::Unsound => "a state that makes no sense",
            Refusal::Time => "a time that is too late or goes back",
            Refusal::Maximum => "a maximum above 7,609 bytes",
            Refusal::Index => "a packet or a fragment past the last",
            Refusal::LongPayload => "a payload above 7,609 bytes, or over Bluetooth above 65,535",
            Refusal::Sequence => "a packet out of order",
            Refusal::LongReply => "a reply that the buffer can't hold",
            Refusal::NotInit => "not a reply to INIT",
            Refusal::Command => "a command above 127, or one that Bluetooth doesn't have",
            Refusal::Vendor => "a vendor command that isn't 64 to 127",
            Refusal::FragmentSize => "a fragment size that isn't 20 to 512",
            Refusal::FragmentLength => "a fragment too short for its head, or above the size",
            Refusal::FragmentNumber => "a fragment out of order",
            Refusal::LongMessage => "a message that the buffer can't hold",
            Refusal::Excess => "more data than was declared",
        })
    }
}

impl core::error::Error for Refusal {}
