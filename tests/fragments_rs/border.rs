//! From the definition's words to the entries' numbers, and back.
use crate::definition::{Begun, Reasons, Taken};
use crate::ours::{Collection, Outcome, kind};

pub fn refused(reasons: &Reasons) -> Outcome {
    Outcome {
        kind: kind::REFUSED,
        refusal: reasons.first().copied().unwrap_or(0),
        ..Default::default()
    }
}

pub fn counted(count: usize) -> Outcome {
    Outcome {
        kind: kind::COUNT,
        len: count,
        ..Default::default()
    }
}

pub fn taken(taken: &Taken) -> Outcome {
    match taken {
        Taken::Waiting => Outcome {
            kind: kind::WAITING,
            ..Default::default()
        },
        Taken::Whole(whole) => Outcome {
            kind: kind::COLLECTED,
            cmd: whole.cmd,
            len: whole.bytes.len(),
            ..Default::default()
        },
    }
}

/// All zeros where none is begun.
pub fn collection_of(begun: Option<&Begun>) -> Collection {
    begun.map_or(Collection::default(), |begun| Collection {
        len: begun.declared as u16,
        taken: begun.bytes.len() as u16,
        cmd: begun.cmd,
        seq: begun.due,
    })
}

/// What a collection stands for, over a buffer. An unsound one may tell of bytes that aren't there.
pub fn begun_of(collection: &Collection, buffer: &[u8]) -> Option<Begun> {
    let taken = collection.taken as usize;
    let mut bytes = buffer[..taken.min(buffer.len())].to_vec();
    bytes.resize(taken, 0);
    (collection.len != 0).then_some(Begun {
        cmd: collection.cmd,
        declared: collection.len as usize,
        due: collection.seq,
        bytes,
    })
}
