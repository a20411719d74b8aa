//! The rules for fragments, written once more by hand, from the ticket alone: a writer that cuts a whole message, and a reader that
//! collects bytes. All that a call alters or answers is compared with them. With a fault planted they take our library's place, to
//! see that the fault is found.
use crate::faults::Fault;

const SMALLEST: usize = 20;
const LARGEST: usize = 512;
const LONGEST: usize = 65_535;

/// PING, KEEPALIVE, MSG, CANCEL, ERROR.
pub const COMMANDS: [u8; 5] = [0x81, 0x82, 0x83, 0xbe, 0xbf];

/// A message that is to be cut.
#[derive(Clone, Copy)]
pub struct Message<'a> {
    pub size: usize,
    pub cmd: u8,
    pub payload: &'a [u8],
}

/// A message on its way in.
pub struct Begun {
    pub cmd: u8,
    pub declared: usize,
    pub due: u8,
    pub bytes: Vec<u8>,
}

/// What a fragment is, if it isn't too short for its head.
#[derive(Clone, Copy)]
enum Parsed<'a> {
    First(u8, usize, &'a [u8]),
    Continuation(u8, &'a [u8]),
}

/// What becomes of a fragment that is taken.
pub enum Taken {
    Waiting,
    Whole(Begun),
}

/// The numbers of all refusals that hold, in their order: the first is the answer, and the others show that the order is tried.
pub type Reasons = Vec<u8>;

pub struct Definition {
    pub fault: Fault,
}

impl Definition {
    // ---- what writer and reader have in common

    fn sized(&self, entry: &str, size: usize) -> usize {
        match self.fault.of(entry) {
            "size-of-16-bits" => size as u16 as usize,
            _ => size,
        }
    }

    fn is_size(&self, entry: &str, size: usize) -> bool {
        let size = self.sized(entry, size);
        match self.fault.of(entry) {
            "size-19-taken" => (SMALLEST - 1..=LARGEST).contains(&size),
            "size-513-taken" => (SMALLEST..=LARGEST + 1).contains(&size),
            "size-20-refused" => (SMALLEST + 1..=LARGEST).contains(&size),
            "size-512-refused" => (SMALLEST..LARGEST).contains(&size),
            _ => (SMALLEST..=LARGEST).contains(&size),
        }
    }

    fn is_length(&self, entry: &str, len: usize) -> bool {
        match self.fault.of(entry) {
            "65535-refused" => len < LONGEST,
            "65536-taken" => len <= LONGEST + 1,
            "length-of-16-bits" => true,
            _ => len <= LONGEST,
        }
    }

    /// The refusals that hold, of all that a call has, in the order of the ticket.
    fn in_order(&self, entry: &str, all: &[(u8, bool)]) -> Reasons {
        let holds = all.iter().filter(|(_, holds)| *holds);
        let mut reasons: Reasons = holds.map(|(number, _)| *number).collect();
        if reasons.len() > 1 {
            self.fault.reorder(entry, &mut reasons);
        }
        reasons
    }

    // ---- the writer

    fn first_holds(&self, size: usize) -> usize {
        match self.fault.name {
            "first-holds-one-more" => size - 2,
            "first-holds-one-less" => size - 4,
            _ => size - 3,
        }
    }

    fn continuation_holds(&self, size: usize) -> usize {
        match self.fault.name {
            "continuation-holds-one-less" => size - 2,
            "continuation-holds-one-more" => size,
            _ => size - 1,
        }
    }

    /// As few as hold so many bytes: one more than the most that hold less, which is found bit by bit.
    fn fewest(&self, size: usize, len: usize) -> usize {
        let (first, later) = (self.first_holds(size), self.continuation_holds(size));
        let hold_less = |count: usize| first + (count - 1) * later < len;
        let most = (0..16).rev().fold(0, |most, bit| match most | 1 << bit {
            more if hold_less(more) => more,
            _ => most,
        });
        match self.fault.name {
            "count-0-of-no-bytes" if len == 0 => 0,
            "count-one-more-when-full" if first + most * later == len => most + 2,
            _ => most + 1,
        }
    }

    pub fn count(&self, size: usize, len: usize) -> Result<usize, Reasons> {
        let reasons = self.in_order(
            "count-",
            &[
                (14, !self.is_size("count-", size)),
                (7, !self.is_length("count-", len)),
            ],
        );
        let len = match self.fault.name {
            "count-length-of-16-bits" => len as u16 as usize,
            _ => len,
        };
        match reasons.is_empty() {
            true => Ok(self.fewest(self.sized("count-", size), len)),
            false => Err(reasons),
        }
    }

    /// All fragments of a message, also of one that is refused. None where the size has no room for a byte.
    pub fn cut(&self, message: &Message) -> Vec<Vec<u8>> {
        let size = self.sized("write-", message.size);
        if size < 4 {
            return vec![];
        }
        let payload = message.payload;
        let (first, rest) = payload.split_at(payload.len().min(self.first_holds(size)));
        let declared = match self.fault.name {
            "write-length-low-byte-first" => (payload.len() as u16).to_le_bytes(),
            "write-length-of-first-alone" => (first.len() as u16).to_be_bytes(),
            _ => (payload.len() as u16).to_be_bytes(),
        };
        let (last, skipped) = match self.fault.name {
            "write-numbers-to-255" => (255, 0),
            "write-numbers-to-126" => (126, 0),
            "write-first-number-1" => (127, 1),
            _ => (127, 0),
        };
        let numbers = (0..=last).cycle().skip(skipped);
        let mut fragments = vec![[&[message.cmd], &declared[..], first].concat()];
        let parts = rest.chunks(self.continuation_holds(size));
        fragments.extend(numbers.zip(parts).map(|(n, part)| [&[n], part].concat()));
        if let Some(last) = fragments.last_mut() {
            match self.fault.name {
                "last-short-by-one" => last.truncate(last.len() - 1),
                "last-padded" => last.resize(size, 0),
                _ => (),
            }
        }
        fragments
    }

    fn is_command(&self, cmd: u8) -> bool {
        match self.fault.name {
            "write-command-90-taken" if cmd == 0x90 => true,
            "write-command-from-128-taken" => cmd >= 0x80,
            "write-command-by-low-bits" => COMMANDS.contains(&(cmd | 0x80)),
            "write-cancel-refused" if cmd == 0xbe => false,
            _ => COMMANDS.contains(&cmd),
        }
    }

    /// One fragment of a message that was cut, to be written where there is room for so many bytes.
    pub fn write<'a>(
        &self,
        message: &Message,
        cut: &'a [Vec<u8>],
        index: usize,
        room: usize,
    ) -> Result<&'a [u8], Reasons> {
        let index = match self.fault.name {
            "write-index-of-16-bits" => index as u16 as usize,
            "write-index-of-32-bits" => index as u32 as usize,
            "write-index-at-count-taken" if index == cut.len() => index.saturating_sub(1),
            _ => index,
        };
        let size = self.sized("write-", message.size);
        let is_short = match self.fault.name {
            "write-long-room-refused" => room != size,
            "write-exact-room-refused" => room <= size,
            "write-room-of-fragment-taken" => cut.get(index).is_some_and(|f| room < f.len()),
            _ => room < size,
        };
        let reasons = self.in_order(
            "write-",
            &[
                (14, !self.is_size("write-", message.size)),
                (2, is_short),
                (12, !self.is_command(message.cmd)),
                (7, !self.is_length("write-", message.payload.len())),
                (6, cut.len() <= index),
            ],
        );
        match cut.get(index) {
            Some(fragment) if reasons.is_empty() => Ok(fragment),
            _ => Err(reasons),
        }
    }

    // ---- the reader

    fn parsed<'a>(&self, fragment: &'a [u8]) -> Option<Parsed<'a>> {
        match (self.fault.name, fragment) {
            ("head-of-2-bytes-taken", [cmd @ 128..=255, high]) => {
                Some(Parsed::First(*cmd, (*high as usize) << 8, &[]))
            }
            ("continuation-data-from-byte-3", [number @ 0..=127, _, _, data @ ..]) => {
                Some(Parsed::Continuation(*number, data))
            }
            (_, []) | (_, [128..=255]) | (_, [128..=255, _]) => None,
            (fault, [cmd @ 128..=255, high, low, data @ ..]) => {
                let declared = match fault {
                    "read-length-low-byte-first" => [*low, *high],
                    "read-length-of-8-bits" => [0, *low],
                    _ => [*high, *low],
                };
                Some(Parsed::First(
                    *cmd,
                    u16::from_be_bytes(declared) as usize,
                    data,
                ))
            }
            (_, [number, data @ ..]) => Some(Parsed::Continuation(*number, data)),
        }
    }

    fn is_sound(&self, begun: &Begun, room: usize) -> bool {
        let taken = begun.bytes.len();
        match self.fault.name {
            "all-taken-sound" if taken == begun.declared => {
                begun.declared <= room && begun.due <= 127
            }
            "number-128-sound" if begun.due == 128 => taken < begun.declared,
            "above-room-sound" => taken < begun.declared && begun.due <= 127,
            "exact-room-unsound" if begun.declared == room => false,
            "low-command-unsound" if begun.cmd < 128 => false,
            "number-127-unsound" if begun.due == 127 => false,
            _ => taken < begun.declared && begun.declared <= room && begun.due <= 127,
        }
    }

    fn is_bad_length(
        &self,
        size: usize,
        fragment: &[u8],
        begun: Option<&Begun>,
        parsed: Option<Parsed>,
    ) -> bool {
        let size = self.sized("read-", size);
        let is_short = match (self.fault.name, parsed) {
            ("empty-continuation-refused", Some(Parsed::Continuation(_, []))) => true,
            ("empty-first-refused", Some(Parsed::First(_, 1.., []))) => true,
            ("not-full-refused", Some(Parsed::First(_, declared, data))) => {
                data.len() < declared && fragment.len() < size
            }
            ("not-full-refused", Some(Parsed::Continuation(_, data))) => {
                let remains = |b: &Begun| b.declared.saturating_sub(b.bytes.len());
                begun.is_some_and(|b| data.len() < remains(b)) && fragment.len() < size
            }
            // it is for refusal 16 then
            ("short-head-inside-16", None) => fragment.is_empty() || begun.is_none(),
            _ => parsed.is_none(),
        };
        let is_long = match self.fault.name {
            "one-above-size-taken" => fragment.len() > size.saturating_add(1),
            "full-fragment-refused" => fragment.len() >= size,
            _ => fragment.len() > size,
        };
        is_short || is_long
    }

    fn is_bad_number(&self, begun: Option<&Begun>, parsed: Option<Parsed>) -> bool {
        match (self.fault.name, parsed, begun) {
            ("first-begins-anew", Some(Parsed::First(..)), Some(_)) => false,
            ("number-not-looked-at", Some(Parsed::Continuation(..)), Some(_)) => false,
            ("number-by-6-bits", Some(Parsed::Continuation(number, _)), Some(begun)) => {
                (number ^ begun.due) & 0x3f != 0
            }
            ("continuation-alone-ignored", Some(Parsed::Continuation(..)), None) => false,
            ("short-head-inside-16", None, Some(_)) => true,
            (_, Some(Parsed::Continuation(number, _)), Some(begun)) => number != begun.due,
            (_, Some(Parsed::Continuation(..)), None) => true,
            (_, Some(Parsed::First(..)), Some(_)) => true,
            (_, Some(Parsed::First(..)), None) | (_, None, _) => false,
        }
    }

    fn is_above_room(&self, parsed: Option<Parsed>, room: usize) -> bool {
        let Some(Parsed::First(_, declared, _)) = parsed else {
            return false;
        };
        match self.fault.name {
            "exact-room-refused" => declared >= room,
            "one-above-room-taken" => declared > room + 1,
            _ => declared > room,
        }
    }

    fn is_excess(&self, begun: Option<&Begun>, parsed: Option<Parsed>) -> bool {
        let (remains, data) = match (parsed, begun) {
            (Some(Parsed::First(_, declared, data)), _) => (declared, data.len()),
            (Some(Parsed::Continuation(_, data)), Some(begun)) => {
                let remains = begun.declared.saturating_sub(begun.bytes.len());
                (remains, data.len())
            }
            _ => return false,
        };
        match self.fault.name {
            "excess-cut-off" => false,
            "excess-of-no-bytes-taken" if remains == 0 => false,
            "exact-data-refused" => data >= remains && data > 0,
            _ => data > remains,
        }
    }

    /// Takes a fragment, or tells why not; then what is begun stays as it is.
    pub fn read(
        &self,
        begun: &mut Option<Begun>,
        size: usize,
        fragment: &[u8],
        room: usize,
    ) -> Result<Taken, Reasons> {
        let parsed = self.parsed(fragment);
        let inside = begun.as_ref();
        let reasons = self.in_order(
            "read-",
            &[
                (14, !self.is_size("read-", size)),
                (3, inside.is_some_and(|b| !self.is_sound(b, room))),
                (15, self.is_bad_length(size, fragment, inside, parsed)),
                (16, self.is_bad_number(inside, parsed)),
                (17, self.is_above_room(parsed, room)),
                (18, self.is_excess(inside, parsed)),
            ],
        );
        match parsed {
            Some(parsed) if reasons.is_empty() => self.take(begun, parsed),
            _ => Err(self.refused(begun, parsed, reasons)),
        }
    }

    fn take(&self, begun: &mut Option<Begun>, parsed: Parsed) -> Result<Taken, Reasons> {
        match (parsed, begun.as_mut()) {
            (Parsed::First(cmd, ..), _)
                if self.fault.is("unknown-command-refused") && !COMMANDS.contains(&cmd) =>
            {
                return Err(vec![12]);
            }
            (Parsed::First(cmd, declared, data), _) => {
                *begun = Some(Begun {
                    cmd: match self.fault.name {
                        "top-bit-masked" => cmd & 0x7f,
                        _ => cmd,
                    },
                    declared,
                    due: self.fault.is("read-first-number-1") as u8,
                    bytes: data.to_vec(),
                });
            }
            (Parsed::Continuation(_, data), Some(begun)) => {
                begun.bytes.extend(data);
                begun.due = match self.fault.name {
                    "empty-continuation-keeps-number" if data.is_empty() => begun.due,
                    "read-numbers-to-255" => begun.due.wrapping_add(1),
                    "read-numbers-to-126" => (begun.due + 1) % 127,
                    _ => (begun.due + 1) % 128,
                };
            }
            (Parsed::Continuation(..), None) => (),
        }
        Ok(self.ended(begun))
    }

    fn ended(&self, begun: &mut Option<Begun>) -> Taken {
        let is_whole = begun.as_ref().is_some_and(|begun| {
            let taken = begun.bytes.len();
            match self.fault.name {
                "no-bytes-wait" if begun.declared == 0 => false,
                "whole-one-early" => taken + 1 >= begun.declared,
                "whole-waits" => taken > begun.declared,
                _ => taken >= begun.declared,
            }
        });
        match begun.take() {
            Some(mut whole) if is_whole => {
                whole.bytes.truncate(whole.declared);
                Taken::Whole(whole)
            }
            goes_on => {
                *begun = goes_on;
                Taken::Waiting
            }
        }
    }

    /// Alters nothing, but for faults.
    fn refused(
        &self,
        begun: &mut Option<Begun>,
        parsed: Option<Parsed>,
        reasons: Reasons,
    ) -> Reasons {
        match (self.fault.name, reasons.first(), parsed) {
            ("wrong-number-drops", Some(16), Some(Parsed::Continuation(..)))
            | ("first-inside-drops", Some(16), Some(Parsed::First(..))) => *begun = None,
            ("excess-drops", Some(18), _) => *begun = None,
            ("excess-written", Some(18), Some(Parsed::Continuation(_, data))) => {
                if let Some(begun) = begun {
                    begun.bytes.extend(data);
                }
            }
            _ => (),
        }
        reasons
    }
}
