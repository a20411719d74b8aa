//! OpenSK's two interfaces and ours, side by side: each step goes through both, and all that can be seen is compared. Each call of ours is
//! compared with the rules too. A key with a list of vendor commands, which OpenSK hasn't, is compared with the rules alone.
use crate::compare::{self, LAST_TIME, same};
use crate::counts::Counts;
use crate::definition::Definition;
use crate::fields;
use crate::lent::{Lent, next_scribble};
use crate::ours::{Call, CtapHid, Key, MessageAssembler, Ours, Outcome, REFUSED, Settings, sides};
use crate::theirs::Theirs;
use opensk::Transport;
use opensk::ctap::hid::HidPacket;
use std::sync::Arc;

#[derive(Clone, Debug)]
pub struct Setup {
    pub settings: Settings,
    /// How many channels main and vendor have.
    pub counts: [u32; 2],
    /// Bytes that a message buffer has beyond its maximum, and the reply buffer beyond 17.
    pub slack: usize,
    /// Tells this run's scribbles from another's.
    pub scribble: u8,
    /// OpenSK is compared with too. It knows no vendor commands, and has U2F as it is built.
    pub with_opensk: bool,
}

/// How many bytes are lent: of the packet, of the message buffer and of the short one.
#[derive(Clone, Copy, Debug)]
pub struct Lengths {
    pub packet: usize,
    pub message: usize,
    pub reply: usize,
}

/// As it must be.
pub const WHOLE: Lengths = Lengths {
    packet: 64,
    message: usize::MAX,
    reply: usize::MAX,
};

#[derive(Clone)]
pub struct Step {
    pub on: Transport,
    pub time: u64,
    pub packet: HidPacket,
    /// The length of what the authenticator answers, should the step hand something over.
    pub answer: usize,
    pub lent: Lengths,
}

/// A message buffer for each interface, and a short one for both.
#[derive(Clone)]
struct Buffers {
    messages: [Lent; 2],
    reply: Lent,
}

impl Buffers {
    fn new(setup: &Setup) -> Self {
        Buffers {
            messages: setup
                .settings
                .maxima
                .map(|max| Lent::new(max + setup.slack)),
            reply: Lent::new(17 + setup.slack),
        }
    }

    fn lend(&mut self, on: usize, lent: &Lengths) -> (&mut [u8], &mut [u8]) {
        let message = self.messages[on].part();
        let reply = self.reply.part();
        let (most, short) = (message.len(), reply.len());
        (
            &mut message[..lent.message.min(most)],
            &mut reply[..lent.reply.min(short)],
        )
    }

    fn scribble(&mut self, owed: [usize; 2], first: u8) {
        for (message, owed) in self.messages.iter_mut().zip(owed) {
            message.scribble(owed, first);
        }
        self.reply.scribble(0, first);
    }
}

pub struct Pair {
    opensk: Option<Theirs>,
    ours: Ours,
    our_buffers: Buffers,
    rules: Definition,
    buffers: Buffers,
    scribble: u8,
    fault: &'static str,
    /// What OpenSK has nothing like is compared with the rules.
    with_rules: bool,
    /// What the authenticator answers: the front of these bytes.
    answers: Arc<Vec<u8>>,
}

/// What became of a call.
#[derive(PartialEq, Eq)]
pub enum Met {
    /// It was refused, and OpenSK was not given it.
    Refused,
    Stepped,
    /// OpenSK was given another packet.
    AllowedFor,
}

impl Pair {
    pub fn new(
        setup: &Setup,
        fault: &'static str,
        with_rules: bool,
        answers: &Arc<Vec<u8>>,
    ) -> Self {
        let Setup {
            settings, counts, ..
        } = setup;
        let opensk = setup.with_opensk.then(|| Theirs::new(setup));
        // ignored, and left as it is
        let spares = (setup.scribble, u16::from_be_bytes([setup.scribble, 1]));
        let mut ours = Ours::of(&Key::default(), fault);
        assert_eq!(ours.set_up(settings, fault), 0);
        ours.begin_at(*counts, spares);
        let mut rules = Definition::set_up(&Key::default(), settings, "").unwrap();
        rules.begin_at(*counts, spares);
        Pair {
            opensk,
            ours,
            our_buffers: Buffers::new(setup),
            rules,
            buffers: Buffers::new(setup),
            scribble: setup.scribble,
            fault,
            with_rules,
            answers: answers.clone(),
        }
    }

    /// The rules' state, for whoever makes up the next packet.
    pub fn state(&self, on: Transport) -> &CtapHid {
        &self.rules.sides[on as usize].hid
    }

    pub fn key(&self) -> Key {
        self.rules.key()
    }

    /// Of each interface the bytes taken are owed while its transaction is on; past them, and in the short buffer, anything may stand.
    fn scribble(&mut self, time: u64) {
        let owed = [0, 1].map(|at| {
            let on = &self.rules.sides[at].hid.assembler;
            let live = on.len > 0 && time < on.deadline;
            let owed = if live { on.taken as usize } else { 0 };
            owed.saturating_sub((self.fault == "owed-byte-lost") as usize)
        });
        self.scribble = next_scribble(self.scribble);
        self.buffers.scribble(owed, self.scribble);
        self.our_buffers.scribble(owed, self.scribble);
    }

    pub fn step(&mut self, step: &Step, counts: &mut Counts) -> Result<Met, String> {
        let Step { on, time, lent, .. } = *step;
        let mut bytes = [0; 65];
        bytes[..64].copy_from_slice(&step.packet);
        let packet = &bytes[..lent.packet];
        let call = Call { on, time, packet };
        let came = self.rules.key();
        let (message, reply) = self.buffers.lend(on as usize, &lent);
        let is_refused = self.rules.refusal(&call, message.len(), reply.len()) != 0;
        if !is_refused {
            self.scribble(time);
        }

        let buffer = match self.fault {
            "one-message-buffer" => 0,
            _ => on as usize,
        };
        let (message, reply) = self.our_buffers.lend(buffer, &lent);
        let outcome = self.ours.step(&call, message, reply);
        let (message, reply) = self.buffers.lend(on as usize, &lent);
        let wanted = self.rules.step(&call, message, reply);
        let said = self.buffers.reply.front(1)[0];
        counts.step(&came, &call, &wanted, said);

        let met = match (is_refused, &self.opensk) {
            (true, _) => Met::Refused,
            (_, None) => Met::Stepped,
            (_, Some(_)) => self.opensk_step(step, &outcome)?,
        };
        if !self.with_rules {
            return Ok(met);
        }
        same!("the answer by the rules", wanted, outcome);
        for time in self.times(self.rules.sides[0].hid.last) {
            let wanted = self.rules.questions(time);
            same!(
                format!("locks and wink at {time} by the rules"),
                wanted,
                self.ours.questions(time)
            );
        }
        fields::compare("the record by the rules", &self.rules.key(), &self.ours.key)?;
        for (name, at) in [("main's message", 0), ("vendor's message", 1)] {
            self.buffers.messages[at].compare(name, &self.our_buffers.messages[at])?;
        }
        self.buffers
            .reply
            .compare("reply", &self.our_buffers.reply)?;
        Ok(met)
    }

    /// When to ask whether locks and wink run: now, and just before and at each end.
    fn times(&self, now: u64) -> impl Iterator<Item = u64> + use<> {
        let [main, vendor] = &self.rules.sides;
        let ends = [main.hid.lock, vendor.hid.lock, main.wink];
        let later = ends.into_iter().filter(move |end| now < *end);
        let times = later.flat_map(|end| [end - 1, end]);
        [now]
            .into_iter()
            .chain(times)
            .filter(|time| *time <= LAST_TIME)
    }

    /// The same packet through OpenSK, and what it shows against ours.
    fn opensk_step(&mut self, step: &Step, ours: &Outcome) -> Result<Met, String> {
        let on = step.on as usize;
        let name = ["main", "vendor"][on];
        let reply = &self.answers[..step.answer];
        let said = self.opensk.as_mut().unwrap().step(step, reply);
        let Buffers {
            messages,
            reply: short,
        } = &self.our_buffers;
        let payload = compare::payload(name, ours, &messages[on], short)?;
        compare::answer(said.sent, &said.handed, reply, ours, payload, "")
            .map_err(|what| format!("{name}: {what}"))?;
        self.opensk_state(step.time)?;

        // what is allowed for is just what the rules answer at once, and OpenSK would not
        let declared = u16::from_be_bytes([step.packet[5], step.packet[6]]) as u32;
        let is_late = declared > 57 || declared > self.rules.sides[on].hid.max;
        let is_due = self.rules.told_at_once && is_late;
        assert_eq!(is_due, said.was_allowed_for, "allowed for");
        Ok(match said.was_allowed_for {
            true => Met::AllowedFor,
            false => Met::Stepped,
        })
    }

    /// OpenSK's questions and state after a step against ours. What its questions will answer later goes by its state.
    fn opensk_state(&mut self, time: u64) -> Result<(), String> {
        let running = self.opensk.as_mut().unwrap().questions();
        same!("locks and wink", running, self.ours.questions(time));
        let (theirs, wink) = self.opensk.as_mut().unwrap().state();
        let wink = wink.filter(|end| time < *end);
        let our_wink = Some(self.ours.key.main.wink).filter(|end| time < *end);
        same!("end of the wink", wink, our_wink);
        let [main, vendor] = sides(&self.ours.key);
        let [main_message, vendor_message] = &self.our_buffers.messages;
        let ends = [
            compare::state("main", theirs[0], &main, main_message, time)?,
            compare::state("vendor", theirs[1], &vendor, vendor_message, time)?,
            wink,
        ];
        for later in self.times(time) {
            let running = ends.map(|end| end.is_some_and(|end| later < end) as u8);
            let ours = self.ours.questions(later);
            same!(format!("locks and wink at {later}"), running, ours);
        }
        Ok(())
    }
}

/// Set-up over a key that came as it is, against the rules'. Tells the refusal.
pub fn set_up(with: &Settings, came: &Key, fault: &'static str) -> Result<u8, String> {
    let (wanted, left) = match Definition::set_up(came, with, "") {
        Ok(rules) => (0, rules.key()),
        Err(refusal) => (refusal, *came),
    };
    let mut ours = Ours::of(came, fault);
    let refusal = ours.set_up(with, fault);
    same!("refusal of set-up", wanted, refusal);
    fields::compare("the record after set-up", &left, &ours.key)?;
    Ok(wanted)
}

/// A record without what the idle assembler of a stepped interface has besides being idle: nothing goes by it, and a bent record may have
/// anything there.
fn meant(mut key: Key, on: Transport) -> Key {
    let assembler = match on {
        Transport::MainHid => &mut key.main.hid.assembler,
        Transport::VendorHid => &mut key.vendor.assembler,
    };
    if assembler.len == 0 {
        *assembler = MessageAssembler::default();
    }
    key
}

/// A step, and the questions, of a record of any contents. The buffers are lent as they are. Tells the refusal.
pub fn call(
    key: &Key,
    call: &Call,
    message: &Lent,
    reply: &Lent,
    fault: &'static str,
) -> Result<u8, String> {
    let mut rules = Definition::of(key, "");
    let mut ours = Ours::of(key, fault);
    same!(
        format!("locks and wink at {}", call.time),
        rules.questions(call.time),
        ours.questions(call.time)
    );
    fields::compare("the record after a question", key, &ours.key)?;
    let (mut wanted_message, mut wanted_reply) = (message.clone(), reply.clone());
    let (mut our_message, mut our_reply) = (message.clone(), reply.clone());
    let wanted = rules.step(call, wanted_message.part(), wanted_reply.part());
    let outcome = ours.step(call, our_message.part(), our_reply.part());
    same!("the answer", wanted, outcome);
    let [left, our_left] = [rules.key(), ours.key].map(|key| meant(key, call.on));
    fields::compare("the record", &left, &our_left)?;
    wanted_message.compare("message", &our_message)?;
    wanted_reply.compare("reply", &our_reply)?;
    if wanted.kind == REFUSED {
        fields::compare("the record of a call that is refused", key, &ours.key)?;
    }
    Ok(wanted.refusal)
}
