//! Bluetooth: messages in fragments, for both ends. OpenSK has none.
//!
//! A message is a command and up to 65,535 bytes. The fragment size is how many bytes a fragment has at most, 20 to 512, and is
//! the caller's to choose: to a key, by what its characteristic fidoControlPointLength says, and from a key the link's ATT_MTU
//! less 3. No time is kept: a message that stops halfway is for the caller's own timer, and for [`Reader::clear`]. KEEPALIVE,
//! CANCEL and ERROR are plain messages here; what they mean is the caller's.
//!
//! ```
//! use snjofrask::ble::{Command, Fragments, Message, Reader};
//!
//! let payload = [7; 40];
//! let mut message = [0; 1024];
//! let mut reader = Reader::new(&mut message);
//! let mut fragments = Fragments::new(20, Command::Msg, &payload)?;
//! let mut buffer = [0; 20];
//! let mut read = 0;
//! while let Some(fragment) = fragments.next(&mut buffer)? {
//!     if let Some(message) = reader.take_fragment(20, fragment)? {
//!         assert_eq!(message, Message { cmd: Command::Msg.byte(), payload: &payload });
//!         read += 1;
//!     }
//! }
//! assert_eq!(read, 1);
//! # Ok::<(), snjofrask::Refusal>(())
//! ```
use crate::message::Refusal;
use crate::raw::{self, kind};

/// The smallest fragment size.
pub const SMALLEST_FRAGMENT: usize = 20;

/// The largest fragment size.
pub const LARGEST_FRAGMENT: usize = 512;

/// The largest payload of a message, in bytes.
pub const LARGEST_PAYLOAD: usize = 65_535;

/// The commands that are written, in the order of CTAP 2.1, section 11.4. A reader takes any byte from 128 on.
#[derive(Clone, Copy, Debug, PartialEq, Eq)]
pub enum Command {
    /// Echoed.
    Ping = 0x81,
    /// Not done yet.
    Keepalive = 0x82,
    /// CTAP2 or U2F.
    Msg = 0x83,
    /// Gives a request up.
    Cancel = 0xBE,
    /// An error.
    Error = 0xBF,
}

impl Command {
    /// Its byte.
    ///
    /// ```
    /// use snjofrask::ble::Command;
    ///
    /// assert_eq!(Command::Msg.byte(), 0x83);
    /// ```
    pub const fn byte(self) -> u8 {
        self as u8
    }

    /// The one with a byte, or `None`.
    ///
    /// ```
    /// use snjofrask::ble::Command;
    ///
    /// assert_eq!(Command::from_byte(0xBE), Some(Command::Cancel));
    /// assert_eq!(Command::from_byte(0x84), None);
    /// ```
    pub const fn from_byte(byte: u8) -> Option<Command> {
        match byte {
            0x81 => Some(Command::Ping),
            0x82 => Some(Command::Keepalive),
            0x83 => Some(Command::Msg),
            0xBE => Some(Command::Cancel),
            0xBF => Some(Command::Error),
            _ => None,
        }
    }
}

/// How many fragments of a size a payload of so many bytes takes, from 1 to 3,450.
///
/// Another size is refused, and then a payload that is too long:
///
/// ```
/// use snjofrask::Refusal;
/// use snjofrask::ble::fragment_count;
///
/// assert_eq!(fragment_count(20, 17), Ok(1));
/// assert_eq!(fragment_count(20, 18), Ok(2));
/// assert_eq!(fragment_count(20, 65_535), Ok(3450));
/// assert_eq!(fragment_count(19, 65_536), Err(Refusal::FragmentSize));
/// assert_eq!(fragment_count(512, 65_536), Err(Refusal::LongPayload));
/// ```
pub fn fragment_count(size: usize, len: usize) -> Result<usize, Refusal> {
    let outcome = raw::ble_fragment_count(size, len);
    match outcome.kind {
        kind::COUNT => Ok(outcome.len),
        _ => Err(Refusal::numbered(outcome.refusal)),
    }
}

/// The fragments of a message, each written when it is asked for: as few as hold it, each but the last full.
#[derive(Clone, Debug)]
pub struct Fragments<'a> {
    size: usize,
    cmd: Command,
    payload: &'a [u8],
    index: usize,
    count: usize,
}

impl<'a> Fragments<'a> {
    /// The fragments of a message. Refused as [`fragment_count`] is.
    ///
    /// ```
    /// use snjofrask::Refusal;
    /// use snjofrask::ble::{Command, Fragments};
    ///
    /// let mut fragments = Fragments::new(20, Command::Ping, &[7; 18])?;
    /// let mut buffer = [0; 20];
    /// assert_eq!(fragments.next(&mut buffer)?.unwrap()[..4], [0x81, 0, 18, 7]);
    /// assert_eq!(fragments.left(), 1);
    /// assert_eq!(fragments.next(&mut buffer)?, Some(&[0, 7][..]));
    /// assert_eq!(fragments.left(), 0);
    /// assert_eq!(fragments.next(&mut buffer)?, None);
    ///
    /// let refused = |size, payload| Fragments::new(size, Command::Ping, payload).err();
    /// assert_eq!(refused(513, &[]), Some(Refusal::FragmentSize));
    /// assert_eq!(refused(512, &[0; 65_536]), Some(Refusal::LongPayload));
    /// # Ok::<(), Refusal>(())
    /// ```
    pub fn new(size: usize, cmd: Command, payload: &'a [u8]) -> Result<Fragments<'a>, Refusal> {
        let count = fragment_count(size, payload.len())?;
        Ok(Fragments {
            size,
            cmd,
            payload,
            index: 0,
            count,
        })
    }

    /// Writes the next fragment to the front of a buffer, which is then to be sent; `None` where none is left. The buffer's
    /// other bytes stay.
    ///
    /// A buffer that is shorter than the fragment size is refused, and the fragment is still the next one:
    ///
    /// ```
    /// use snjofrask::Refusal;
    /// use snjofrask::ble::{Command, Fragments};
    ///
    /// let mut fragments = Fragments::new(20, Command::Cancel, &[])?;
    /// let mut buffer = [9; 20];
    /// assert_eq!(fragments.next(&mut buffer[..19]), Err(Refusal::ShortBuffer));
    /// assert_eq!(fragments.next(&mut buffer)?, Some(&[0xBE, 0, 0][..]));
    /// assert_eq!(buffer[3..], [9; 17]);
    /// # Ok::<(), Refusal>(())
    /// ```
    pub fn next<'b>(&mut self, buffer: &'b mut [u8]) -> Result<Option<&'b [u8]>, Refusal> {
        if self.left() == 0 {
            return Ok(None);
        }
        let outcome =
            raw::ble_write_fragment(self.size, self.cmd.byte(), self.payload, self.index, buffer);
        if outcome.kind != kind::COUNT {
            return Err(Refusal::numbered(outcome.refusal));
        }
        self.index = self.index.saturating_add(1);
        // a fragment is never longer than the buffer
        Ok(Some(buffer.get(..outcome.len).unwrap_or_default()))
    }

    /// How many fragments are left.
    pub fn left(&self) -> usize {
        self.count.saturating_sub(self.index)
    }
}

/// A whole message.
#[derive(Clone, Copy, Debug, PartialEq, Eq)]
pub struct Message<'a> {
    /// The command's byte as it came, 128 or more. [`Command::from_byte`] names those that there are.
    pub cmd: u8,
    /// The bytes.
    pub payload: &'a [u8],
}

/// A message on its way in.
#[derive(Debug)]
pub struct Reader<'b> {
    state: raw::Collection,
    buffer: &'b mut [u8],
}

impl<'b> Reader<'b> {
    /// No message is begun. Messages are put together in the buffer, and longer ones are refused.
    pub fn new(buffer: &'b mut [u8]) -> Reader<'b> {
        Reader {
            state: raw::Collection::default(),
            buffer,
        }
    }

    /// A fragment that came, at a fragment size: the message, if it is whole now. Fragments that aren't full are taken too, as
    /// long as no more data comes than was declared.
    ///
    /// A fragment that is refused alters nothing, and a message that is begun goes on with the one that is due:
    ///
    /// ```
    /// use snjofrask::Refusal;
    /// use snjofrask::ble::{Message, Reader};
    ///
    /// let mut buffer = [0; 4];
    /// let mut reader = Reader::new(&mut buffer);
    /// assert_eq!(reader.take_fragment(19, &[]), Err(Refusal::FragmentSize));
    /// assert_eq!(reader.take_fragment(20, &[0x83, 0]), Err(Refusal::FragmentLength));
    /// assert_eq!(reader.take_fragment(20, &[0, 1]), Err(Refusal::FragmentNumber));
    /// assert_eq!(reader.take_fragment(20, &[0x83, 0, 5]), Err(Refusal::LongMessage));
    /// assert_eq!(reader.take_fragment(20, &[0x83, 0, 4, 1, 2]), Ok(None));
    /// assert_eq!(reader.take_fragment(20, &[1, 3, 4]), Err(Refusal::FragmentNumber));
    /// assert_eq!(reader.take_fragment(20, &[0, 3, 4, 5]), Err(Refusal::Excess));
    /// let message = Message { cmd: 0x83, payload: &[1, 2, 3, 4] };
    /// assert_eq!(reader.take_fragment(20, &[0, 3, 4]), Ok(Some(message)));
    /// ```
    pub fn take_fragment(
        &mut self,
        size: usize,
        fragment: &[u8],
    ) -> Result<Option<Message<'_>>, Refusal> {
        let outcome = raw::ble_read_fragment(&mut self.state, size, fragment, self.buffer);
        match outcome.kind {
            kind::REFUSED => Err(Refusal::numbered(outcome.refusal)),
            kind::COLLECTED => Ok(Some(Message {
                cmd: outcome.cmd,
                // a message is never longer than the buffer
                payload: self.buffer.get(..outcome.len).unwrap_or_default(),
            })),
            _ => Ok(None),
        }
    }

    /// Gives up a message that is begun.
    ///
    /// ```
    /// use snjofrask::Refusal;
    /// use snjofrask::ble::Reader;
    ///
    /// let mut buffer = [0; 4];
    /// let mut reader = Reader::new(&mut buffer);
    /// let first = [0x83, 0, 4, 1, 2];
    /// assert_eq!(reader.take_fragment(20, &first), Ok(None));
    /// assert_eq!(reader.take_fragment(20, &first), Err(Refusal::FragmentNumber));
    /// reader.clear();
    /// assert_eq!(reader.take_fragment(20, &first), Ok(None));
    /// ```
    pub fn clear(&mut self) {
        self.state = raw::Collection::default();
    }
}
