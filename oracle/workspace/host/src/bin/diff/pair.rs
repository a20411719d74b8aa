//! OpenSK and ours, side by side: each step goes through both, and all that can be seen is compared. A device with a list of
//! vendor commands, which OpenSK hasn't, is compared with the definition alone.
use crate::allowance;
use crate::compare::{self, U2F, packets, same};
use crate::definition::{BROADCAST, Definition, Effect};
use crate::lent::{Lent, next_scribble, write};
use crate::ours::{self, MESSAGE, Outcome, REPLY};
use host::HostEnv;
use opensk::ctap::CtapState;
use opensk::ctap::hid::{
    CtapHid, CtapHidCommand, HidPacket, HidPacketIterator, KeepaliveStatus, Message,
    ProcessedPacket,
};
use opensk::ctap::main_hid::MainHid;

#[derive(Clone, Debug)]
pub struct Setup {
    pub max: usize,
    pub allocated: u32,
    /// Bytes that the message buffer has beyond the maximum, and the reply buffer beyond 17.
    pub slack: usize,
    /// Tells this run's scribbles from another's.
    pub scribble: u8,
    /// The vendor commands that are listed, to compare with the definition. Without, OpenSK is compared with; it knows
    /// none, so the list is empty.
    pub list: Option<Vec<u8>>,
}

#[derive(Clone)]
pub struct Step {
    pub time: u64,
    pub disabled: bool,
    pub packet: HidPacket,
    /// The length of what the authenticator answers, should the step hand something over.
    pub answer: usize,
}

/// Our two machines, the transport alone and the device, each with its own buffers.
struct Ours {
    inner: ours::CtapHid,
    outer: ours::MainHid,
    inner_message: Lent,
    inner_reply: Lent,
    outer_message: Lent,
    outer_reply: Lent,
    /// Takes the library's place where a fault is planted.
    faulty: Option<Definition>,
}

impl Ours {
    fn step(&mut self, step: &Step) -> (Outcome, Outcome) {
        let Step {
            time,
            disabled,
            packet,
            ..
        } = step;
        if let Some(definition) = &mut self.faulty {
            let message = self.inner_message.front(usize::MAX);
            let effect = definition.step(*time, *disabled, packet, message);
            self.inner = definition.hid;
            self.outer.hid = definition.hid;
            self.outer.wink = definition.wink;
            let data = &packet[effect.data.clone()];
            write(self.inner_message.part(), effect.at, data);
            write(self.outer_message.part(), effect.at, data);
            write(self.inner_reply.part(), 0, &effect.inner_reply);
            write(self.outer_reply.part(), 0, &effect.outer_reply);
            if definition.is("reply-buffer-cleared") && effect.outer_reply.len() == 1 {
                write(self.outer_reply.part(), 1, &[0; 16]);
            }
            return (effect.inner, effect.outer);
        }
        let inner = ours::transport_step(
            &mut self.inner,
            *time,
            *disabled,
            packet,
            self.inner_message.part(),
            self.inner_reply.part(),
        );
        let outer = ours::device_step(
            &mut self.outer,
            *time,
            *disabled,
            packet,
            self.outer_message.part(),
            self.outer_reply.part(),
        );
        (inner, outer)
    }

    fn is_locked(&self, time: u64) -> u8 {
        match self.faulty {
            Some(_) => (time < self.inner.lock) as u8,
            None => ours::is_locked(&self.inner, time),
        }
    }

    fn is_locked_outside(&self, time: u64) -> u8 {
        match self.faulty {
            Some(_) => (time < self.outer.hid.lock) as u8,
            None => ours::is_locked(&self.outer.hid, time),
        }
    }

    fn is_winking(&self, time: u64) -> u8 {
        match self.faulty {
            Some(_) => (time < self.outer.wink) as u8,
            None => ours::is_winking(&self.outer, time),
        }
    }
}

pub struct Pair {
    env: HostEnv,
    authenticator: CtapState<HostEnv>,
    inner: CtapHid<HostEnv>,
    outer: MainHid<HostEnv>,
    ours: Ours,
    definition: Definition,
    is_listed: bool,
    message: Lent,
    inner_reply: Lent,
    outer_reply: Lent,
    scribble: u8,
    fault: &'static str,
    /// The answers alone are compared, and neither states nor buffers.
    answers_only: bool,
    /// What the authenticator answers: the front of these bytes.
    answers: std::sync::Arc<Vec<u8>>,
    last: Outcome,
    /// Whether the last step was allowed for.
    allowed: bool,
}

impl Pair {
    pub fn new(
        setup: &Setup,
        fault: &'static str,
        answers_only: bool,
        answers: &std::sync::Arc<Vec<u8>>,
    ) -> Self {
        let mut env = HostEnv::new(setup.max);
        let authenticator = CtapState::new(&mut env);
        let mut inner = CtapHid::new(if U2F { 5 } else { 13 });
        let mut outer = MainHid::default();
        inner.oracle_set_allocated(setup.allocated);
        outer.oracle_hid().oracle_set_allocated(setup.allocated);
        let list = setup.list.as_deref().unwrap_or_default();
        let (mut our_inner, refusal) = ours::transport_new(setup.max, U2F, list);
        assert_eq!(refusal, 0);
        let (mut our_outer, refusal) = ours::device_new(setup.max, U2F, list);
        assert_eq!(refusal, 0);
        our_inner.allocated = setup.allocated;
        our_outer.hid.allocated = setup.allocated;
        // ignored, and left as it is
        our_inner.spare = setup.scribble;
        our_outer.hid.spare = setup.scribble;
        let message = || Lent::new(setup.max + setup.slack);
        let reply = || Lent::new(17 + setup.slack);
        let definition = |fault| {
            let mut definition = Definition::new(setup.max, U2F, list, fault).unwrap();
            definition.hid.allocated = setup.allocated;
            definition.hid.spare = setup.scribble;
            definition
        };
        Pair {
            env,
            authenticator,
            inner,
            outer,
            ours: Ours {
                inner: our_inner,
                outer: our_outer,
                inner_message: message(),
                inner_reply: reply(),
                outer_message: message(),
                outer_reply: reply(),
                faulty: (!fault.is_empty()).then(|| definition(fault)),
            },
            definition: definition(""),
            is_listed: setup.list.is_some(),
            message: message(),
            inner_reply: reply(),
            outer_reply: reply(),
            scribble: setup.scribble,
            fault,
            answers_only,
            answers: answers.clone(),
            last: Outcome::default(),
            allowed: false,
        }
    }

    /// The definition's state, for whoever makes up the next packet.
    pub fn state(&self) -> &ours::CtapHid {
        &self.definition.hid
    }

    /// The number of an error that the device's last answer told.
    pub fn error(&self) -> Option<u8> {
        let Outcome { kind, cmd, .. } = self.last;
        (kind == REPLY && cmd == 63).then(|| self.ours.outer_reply.front(1)[0])
    }

    /// Whether OpenSK was given another packet in the last step.
    pub fn was_allowed_for(&self) -> bool {
        self.allowed
    }

    /// The bytes taken are owed while a transaction is on; past them, and in the short buffers, anything may stand.
    fn scribble(&mut self, time: u64) {
        let on = &self.definition.hid.assembler;
        let live = on.len > 0 && time < on.deadline;
        let mut owed = if live { on.taken as usize } else { 0 };
        if self.fault == "owed-byte-lost" {
            owed = owed.saturating_sub(1);
        }
        self.scribble = next_scribble(self.scribble);
        let ours = &mut self.ours;
        for message in [
            &mut self.message,
            &mut ours.inner_message,
            &mut ours.outer_message,
        ] {
            message.scribble(owed, self.scribble);
        }
        for reply in [
            &mut self.inner_reply,
            &mut self.outer_reply,
            &mut ours.inner_reply,
            &mut ours.outer_reply,
        ] {
            reply.scribble(0, self.scribble);
        }
    }

    pub fn step(&mut self, step: &Step) -> Result<Outcome, String> {
        let Step { time, packet, .. } = step;
        self.scribble(*time);
        read(packet, self.fault)?;
        if self.is_listed {
            return self.step_as_defined(step);
        }

        // OpenSK
        self.env.now.0 = *time;
        self.authenticator.reply = self.answers[..step.answer].to_vec();
        let [for_inner, for_outer] = [&self.inner, self.outer.oracle_hid()]
            .map(|hid| allowance::instead(hid, &self.env, step.disabled, packet));
        assert_eq!(for_inner, for_outer);
        self.allowed = for_inner.is_some();
        let inner = self.inner.parse_packet(
            &mut self.env,
            for_inner.as_ref().unwrap_or(packet),
            step.disabled,
        );
        let outer = self.outer.process_hid_packet(
            &mut self.env,
            for_outer.as_ref().unwrap_or(packet),
            step.disabled,
            &mut self.authenticator,
        );
        let handed = std::mem::take(&mut self.authenticator.handed);

        // ours
        let (our_inner, our_outer) = self.ours.step(step);
        self.last = our_outer;

        // the transport's answer
        let said = compare::payload(
            "transport",
            &our_inner,
            &self.ours.inner_message,
            &self.ours.inner_reply,
        )?
        .map(|payload| (our_inner.cid, our_inner.cmd, payload));
        let wanted = inner
            .as_ref()
            .map(|m| (u32::from_be_bytes(m.cid), m.cmd as u8, &m.payload[..]));
        same!("the transport's answer", wanted, said);
        let handed_out = our_inner.kind == MESSAGE;
        let is_for_above = wanted.is_some_and(|m| [3, 8, 16].contains(&m.1));
        same!("handed out by the transport", is_for_above, handed_out);
        if let Some((cid, cmd, payload)) = wanted {
            // what OpenSK put into a reply to INIT, told without that reply
            let fields = (cmd == 6).then(|| ours::InitOutcome {
                cid: match cid {
                    BROADCAST => self.inner.oracle_peek().allocated_cids,
                    _ => cid,
                },
                protocol: 2,
                major: 1,
                capabilities: if U2F { 5 } else { 13 },
                nonce: packet[7..15].try_into().unwrap(),
                ..Default::default()
            });
            init(cmd, payload, fields, self.fault)?;
            // the same with more behind it, as another key may send
            if let Some(fields) = fields {
                let longer = [payload, &self.answers[..step.answer]].concat();
                let rest = step.answer as u16;
                let fields = (longer.len() <= 7609).then_some(ours::InitOutcome { rest, ..fields });
                init(cmd, &longer, fields, self.fault)?;
            }
        }

        // the device's answer
        let payload = compare::payload(
            "device",
            &our_outer,
            &self.ours.outer_message,
            &self.ours.outer_reply,
        )?;
        let reply = &self.authenticator.reply;
        compare::answer(outer, &handed, reply, &our_outer, payload, self.fault)?;

        // the questions
        let lock = self.inner.has_channel_lock(&mut self.env);
        same!("lock", lock as u8, self.ours.is_locked(*time));
        let lock = self.outer.has_channel_lock(&mut self.env);
        same!(
            "device's lock",
            lock as u8,
            self.ours.is_locked_outside(*time)
        );
        let wink = self.outer.should_wink(&mut self.env);
        same!("wink", wink as u8, self.ours.is_winking(*time));

        // the definition, for the buffers
        let effect =
            self.definition
                .step(*time, step.disabled, packet, self.message.front(usize::MAX));
        // and for what is allowed for: just what it answers at once, and OpenSK would not
        let declared = u16::from_be_bytes([packet[5], packet[6]]) as usize;
        let is_late = declared > 57 || declared > self.env.customization.max_msg_size;
        assert_eq!(effect.told_at_once && is_late, self.allowed, "allowed for");
        if self.answers_only {
            return Ok(our_outer);
        }
        self.states(*time)?;
        self.write(&effect, packet);
        self.buffers()?;
        Ok(our_outer)
    }

    /// The rest of a step of a device with a list: answers, questions, states and buffers are the definition's.
    fn step_as_defined(&mut self, step: &Step) -> Result<Outcome, String> {
        let Step { time, packet, .. } = step;
        let (our_inner, our_outer) = self.ours.step(step);
        self.last = our_outer;
        let effect =
            self.definition
                .step(*time, step.disabled, packet, self.message.front(usize::MAX));
        same!("the transport's answer", effect.inner, our_inner);
        same!("the device's answer", effect.outer, our_outer);
        let lock = self.definition.is_locked(*time) as u8;
        same!("lock", lock, self.ours.is_locked(*time));
        same!("device's lock", lock, self.ours.is_locked_outside(*time));
        let wink = self.definition.is_winking(*time) as u8;
        same!("wink", wink, self.ours.is_winking(*time));

        self.write(&effect, packet);
        for (name, outcome, wanted, ours) in [
            (
                "the transport's payload",
                our_inner,
                (&self.message, &self.inner_reply),
                (&self.ours.inner_message, &self.ours.inner_reply),
            ),
            (
                "the device's payload",
                our_outer,
                (&self.message, &self.outer_reply),
                (&self.ours.outer_message, &self.ours.outer_reply),
            ),
        ] {
            let payload = |(message, reply): (&Lent, &Lent)| {
                let stands = if outcome.kind == REPLY {
                    reply
                } else {
                    message
                };
                stands.front(outcome.len).to_vec()
            };
            same!(name, payload(wanted), payload(ours));
        }
        if self.answers_only {
            return Ok(our_outer);
        }
        let Definition { hid, wink, .. } = self.definition;
        same!("transport: state", hid, self.ours.inner);
        same!(
            "device: state",
            ours::MainHid { hid, wink },
            self.ours.outer
        );
        self.buffers()?;
        Ok(our_outer)
    }

    fn states(&mut self, time: u64) -> Result<(), String> {
        let wink = self.outer.oracle_wink().0.filter(|end| time < *end);
        let our_wink = Some(self.ours.outer.wink).filter(|end| time < *end);
        same!("end of the wink", wink, our_wink);
        for (name, hid, ours, message) in [
            (
                "transport",
                &self.inner,
                &self.ours.inner,
                &self.ours.inner_message,
            ),
            (
                "device",
                self.outer.oracle_hid(),
                &self.ours.outer.hid,
                &self.ours.outer_message,
            ),
        ] {
            same!(format!("{name}: last time"), time, ours.last);
            same!(
                format!("{name}: settings"),
                (self.env.customization.max_msg_size as u32, U2F),
                (ours.max, ours.u2f != 0)
            );
            compare::state(name, hid, ours, message, time)?;
        }
        Ok(())
    }

    /// What the definition writes, into the buffers that it has beside ours.
    fn write(&mut self, effect: &Effect, packet: &HidPacket) {
        write(self.message.part(), effect.at, &packet[effect.data.clone()]);
        write(self.inner_reply.part(), 0, &effect.inner_reply);
        write(self.outer_reply.part(), 0, &effect.outer_reply);
    }

    fn buffers(&self) -> Result<(), String> {
        for (name, wanted, ours) in [
            (
                "transport: message",
                &self.message,
                &self.ours.inner_message,
            ),
            ("device: message", &self.message, &self.ours.outer_message),
            (
                "transport: reply",
                &self.inner_reply,
                &self.ours.inner_reply,
            ),
            ("device: reply", &self.outer_reply, &self.ours.outer_reply),
        ] {
            wanted.compare(name, ours)?;
        }
        Ok(())
    }
}

/// Set-up of our transport and our device, over a state that came as it is, against the definition's. Tells the refusal.
pub fn set_up(
    max: usize,
    list: &[u8],
    came: ours::MainHid,
    fault: &'static str,
    answers_only: bool,
) -> Result<u8, String> {
    let told = |defined: Result<Definition, u8>| match defined {
        Ok(Definition { hid, wink, .. }) => (0, ours::MainHid { hid, wink }),
        Err(refusal) => (refusal, came),
    };
    let (wanted, left) = told(Definition::new(max, U2F, list, ""));
    let mut inner = came.hid;
    let mut outer = came;
    let refusals = if fault.is_empty() {
        (
            ours::raw::transport_new(&mut inner, max, U2F, list),
            ours::raw::device_new(&mut outer, max, U2F, list),
        )
    } else {
        let (refusal, made) = told(Definition::new(max, U2F, list, fault));
        outer = made;
        match fault {
            "refused-set-up-alters" if refusal != 0 => outer = ours::MainHid::default(),
            "due-kept-at-set-up" => outer.hid.still_due = came.hid.still_due,
            _ => (),
        }
        inner = outer.hid;
        (refusal, refusal)
    };
    same!("refusals of set-up", (wanted, wanted), refusals);
    if !answers_only {
        same!("transport: state after set-up", left.hid, inner);
        same!("device: state after set-up", left, outer);
    }
    Ok(wanted)
}

/// Both readings of one packet.
pub fn read(packet: &HidPacket, fault: &str) -> Result<(), String> {
    let (cid, processed) = CtapHid::<HostEnv>::process_single_packet(packet);
    let (kind, cmd, len, data) = match processed {
        ProcessedPacket::InitPacket { cmd, len, data } => (ours::FIRST, cmd, len, &data[..]),
        ProcessedPacket::ContinuationPacket { seq, data } => {
            (ours::CONTINUATION, seq, 0, &data[..])
        }
    };
    let mut outcome = ours::read_packet(packet);
    if fault == "reader-length-swapped" {
        outcome.len = (outcome.len as u16).swap_bytes() as usize;
    }
    let cid = u32::from_be_bytes(cid);
    let wanted = (kind, cid, cmd, len, 0, 0);
    let Outcome { refusal, spare, .. } = outcome;
    let said = (
        outcome.kind,
        outcome.cid,
        outcome.cmd,
        outcome.len,
        refusal,
        spare,
    );
    same!("reading", wanted, said);
    // where the kind says that the data begins
    let part = &packet[if kind == ours::FIRST { 7 } else { 5 }..];
    same!("the packet's data", data, part);
    Ok(())
}

/// The two replies that OpenSK's transport makes of a channel alone.
pub fn ready_made(cid: u32, fault: &str) -> Result<(), String> {
    let bytes = cid.to_be_bytes();
    for (status, number) in [
        (KeepaliveStatus::Processing, 1),
        (KeepaliveStatus::UpNeeded, 2),
    ] {
        let keepalive = CtapHid::<HostEnv>::keepalive(bytes, status);
        packets(keepalive, cid, 59, &[number], fault)?;
    }
    packets(CtapHid::<HostEnv>::busy_error(bytes), cid, 63, &[6], fault)
}

/// A message of any length through both senders.
pub fn send(cid: u32, cmd: u8, payload: &[u8], fault: &str) -> Result<(), String> {
    let message = Message {
        cid: cid.to_be_bytes(),
        cmd: CtapHidCommand::from(cmd),
        payload: payload.to_vec(),
    };
    let split = CtapHid::<HostEnv>::split_message(message.clone());
    packets(split, cid, cmd, payload, fault)?;
    let count = ours::packet_count(payload.len());
    match HidPacketIterator::new(message) {
        None => {
            same!("count", (ours::REFUSED, 7), (count.kind, count.refusal));
            let mut packet = [0x5a; 64];
            let number = ours::write_packet(cid, cmd, payload, 0, &mut packet);
            same!("writing one that is too long", 7, number);
            same!("a packet not written", [0x5a; 64], packet);
        }
        Some(all) => {
            let all: Vec<_> = all.collect();
            for (index, &wanted) in all.iter().enumerate() {
                let mut packet = [0x5a; 64];
                same!(
                    "writing",
                    0,
                    ours::write_packet(cid, cmd, payload, index, &mut packet)
                );
                same!("packet by index", wanted, packet);
            }
            same!("count", (ours::COUNT, all.len()), (count.kind, count.len));
            for space in [payload.len(), payload.len() + 3] {
                collect(cid, cmd, payload, &all, space, fault)?;
            }
        }
    }
    let fields = (17..=7609)
        .contains(&payload.len())
        .then(|| ours::InitOutcome {
            cid: u32::from_be_bytes(payload[8..12].try_into().unwrap()),
            protocol: payload[12],
            major: payload[13],
            minor: payload[14],
            build: payload[15],
            capabilities: payload[16],
            refusal: 0,
            rest: payload[17..].len() as u16,
            nonce: payload[..8].try_into().unwrap(),
        });
    init(6, payload, fields, fault)
}

/// Our reading of a reply to INIT. Without fields it is none, and is refused with 11.
fn init(
    cmd: u8,
    payload: &[u8],
    fields: Option<ours::InitOutcome>,
    fault: &str,
) -> Result<(), String> {
    let wanted = fields.unwrap_or(ours::InitOutcome {
        refusal: 11,
        ..Default::default()
    });
    let mut told = ours::init_reply(cmd, payload);
    match fault {
        "init-channel-swapped" => told.cid = told.cid.swap_bytes(),
        "init-cbor-lost" => told.capabilities &= !4,
        "init-17-alone" if payload.len() != 17 => told = ours::init_reply(0, payload),
        "init-short-taken" if payload.len() == 16 => told.refusal = 0,
        "init-long-taken" if payload.len() == 7610 => {
            told = ours::init_reply(cmd, &payload[..7609])
        }
        "init-rest-from-16" if told.refusal == 0 => told.rest += 1,
        _ => (),
    }
    same!("fields of a reply to INIT", wanted, told);
    Ok(())
}

/// Our host's side: a collection, and its buffer beside what that must hold.
struct Host<'a> {
    cid: u32,
    collection: ours::Collection,
    buffer: Lent,
    wanted: Lent,
    scribble: u8,
    fault: &'a str,
}

impl Host<'_> {
    fn new(cid: u32, space: usize, fault: &str) -> Host<'_> {
        Host {
            cid,
            collection: Default::default(),
            buffer: Lent::new(space),
            wanted: Lent::new(space),
            scribble: 0,
            fault,
        }
    }

    /// The bytes taken are owed while a reply is begun; past them anything may stand.
    fn scribble(&mut self) {
        let mut owed = self.collection.taken as usize;
        if self.fault == "host-owed-byte-lost" {
            owed = owed.saturating_sub(1);
        }
        self.scribble = next_scribble(self.scribble);
        self.buffer.scribble(owed, self.scribble);
        self.wanted.scribble(owed, self.scribble);
    }

    /// A packet, the data that it must add, the outcome that it must have, and the collection that it must leave.
    fn read(
        &mut self,
        packet: &HidPacket,
        data: &[u8],
        wanted: Outcome,
        left: ours::Collection,
    ) -> Result<(), String> {
        self.scribble();
        write(self.wanted.part(), self.collection.taken as usize, data);
        let mut packet = *packet;
        let mut cid = self.cid;
        match self.fault {
            "host-number-1" if packet[4] < 128 => packet[4] = packet[4].wrapping_sub(1) & 127,
            "host-any-channel" => cid = u32::from_be_bytes(packet[..4].try_into().unwrap()),
            _ => (),
        }
        let outcome = ours::host_read(&mut self.collection, cid, &packet, self.buffer.part());
        if self.fault == "host-spare-bytes-written" && outcome.kind == ours::COLLECTED {
            write(self.buffer.part(), outcome.len, &[0]);
        }
        same!("host: answer", wanted, outcome);
        same!("host: collection", left, self.collection);
        if self.wanted.bytes != self.buffer.bytes {
            return Err("host: the buffer is not what the definition says".to_string());
        }
        Ok(())
    }

    /// A packet that leaves the collection as it is.
    fn pass(&mut self, packet: &HidPacket, wanted: Outcome) -> Result<(), String> {
        self.read(packet, &[], wanted, self.collection)
    }
}

fn refused(refusal: u8) -> Outcome {
    Outcome {
        refusal,
        ..Default::default()
    }
}

fn heard(kind: u8, cmd: u8, len: usize) -> Outcome {
    Outcome {
        kind,
        cmd,
        len,
        ..Default::default()
    }
}

/// OpenSK's packets of a message, through our host reader: the message comes back, whole, at the last
/// one. Packets of another channel come before each, a KEEPALIVE of OpenSK's and a continuation
/// before the first, and inside the reply what must be refused. The buffer has `space` bytes.
fn collect(
    cid: u32,
    cmd: u8,
    payload: &[u8],
    all: &[HidPacket],
    space: usize,
    fault: &str,
) -> Result<(), String> {
    let ignored = heard(ours::IGNORED, 0, 0);
    let another = |packet: &HidPacket| {
        let mut packet = *packet;
        packet[..4].copy_from_slice(&(cid ^ 1).to_be_bytes());
        packet
    };
    let keepalive = CtapHid::<HostEnv>::keepalive(cid.to_be_bytes(), KeepaliveStatus::UpNeeded)
        .next()
        .unwrap();
    let mut host = Host::new(cid, space, fault);
    let mut taken = 0;
    for (index, packet) in all.iter().enumerate() {
        host.pass(&another(packet), ignored)?;
        host.pass(&another(&keepalive), ignored)?;
        let mut next = *packet;
        next[4] = index as u8 & 127;
        if taken == 0 {
            host.pass(&keepalive, heard(ours::KEEPALIVE, 2, 0))?;
            host.pass(&next, ignored)?;
        } else {
            host.pass(&keepalive, refused(9))?;
            host.pass(&all[0], refused(9))?;
            host.pass(&next, refused(9))?;
        }
        // no reply, and not of one byte
        if cmd == 59 {
            let wanted = if index == 0 { refused(10) } else { ignored };
            host.pass(packet, wanted)?;
            continue;
        }
        let data = &packet[if index == 0 { 7 } else { 5 }..];
        let data = &data[..data.len().min(payload.len() - taken)];
        taken += data.len();
        if taken < payload.len() {
            let left = ours::Collection {
                len: payload.len() as u16,
                taken: taken as u16,
                cmd,
                seq: index as u8,
            };
            host.read(packet, data, heard(ours::WAITING, 0, 0), left)?;
        } else {
            let wanted = heard(ours::COLLECTED, cmd, payload.len());
            host.read(packet, data, wanted, Default::default())?;
            same!("host: message", payload, host.buffer.front(payload.len()));
        }
    }
    // a buffer that is a byte too short
    if cmd != 59 && payload.len() == space && space > 0 {
        Host::new(cid, space - 1, fault).pass(&all[0], refused(10))?;
    }
    Ok(())
}
