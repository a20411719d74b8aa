// Wrapper: the real receive.rs and a window on private state. It stands in this module because
// only a child of `hid` sees the private fields of both CtapHid and MessageAssembler.
include!("real_receive.rs");

/// The state of a CtapHid.
#[derive(Clone, Debug, PartialEq, Eq)]
pub struct Peek<Timer> {
    pub allocated_cids: u32,
    pub locked_cid: Option<ChannelID>,
    pub lock_timer: Timer,
    /// None while the assembler is idle: what its fields hold then decides nothing.
    pub transaction: Option<Transaction<Timer>>,
}

/// A message of which packets are still to come.
#[derive(Clone, Debug, PartialEq, Eq)]
pub struct Transaction<Timer> {
    pub cid: ChannelID,
    pub cmd: u8,
    pub seq: u8,
    pub remaining_payload_len: usize,
    pub payload: Vec<u8>,
    pub timer: Timer,
}

impl<E: Env> super::CtapHid<E> {
    /// Sets the count of channels, because the last number is four thousand million INITs away.
    pub fn oracle_set_allocated(&mut self, count: u32) {
        self.allocated_cids = count;
    }

    pub fn oracle_peek(&self) -> Peek<<E::Clock as Clock>::Timer>
    where
        <E::Clock as Clock>::Timer: Clone,
    {
        let assembler = &self.assembler;
        Peek {
            allocated_cids: self.allocated_cids,
            locked_cid: self.locked_cid,
            lock_timer: self.lock_timer.clone(),
            transaction: (!assembler.idle).then(|| Transaction {
                cid: assembler.cid,
                cmd: assembler.cmd,
                seq: assembler.seq,
                remaining_payload_len: assembler.remaining_payload_len,
                payload: assembler.payload.clone(),
                timer: assembler.timer.clone(),
            }),
        }
    }
}
