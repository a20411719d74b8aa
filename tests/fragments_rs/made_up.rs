//! Numbers and bytes that are made up, around all that the rules compare them with.
use crate::definition::COMMANDS;
use crate::ours::Collection;
use crate::random::Random;

/// Of any size.
fn any(random: &mut Random) -> usize {
    let shift = random.below(64);
    ((random.next() << 32 ^ random.next()) >> shift) as usize
}

/// From 20 to 512, the edges more often.
pub fn size(random: &mut Random) -> usize {
    let between = 20 + random.below(493);
    let edge = random.of(&[20, 20, 20, 21, 22, 511, 512, 512]);
    let usual = random.of(&[23, 64, 128, 129, 130, 185, 244, 255, 256, 257]);
    random.of(&[edge, edge, edge, usual, between, between, between, between])
}

/// Out of range, also by the low bits of one that isn't.
pub fn bad_size(random: &mut Random) -> usize {
    let (good, number) = (size(random), any(random));
    let number = match (20..=512).contains(&number) {
        true => 0,
        false => number,
    };
    let low_bits = [good | 1 << 16, good | 1 << 32, good | 1 << 63];
    let low_bits = random.of(&low_bits);
    let edge = random.of(&[0, 1, 2, 3, 4, 18, 514, usize::MAX, usize::MAX - 1]);
    random.of(&[19, 19, 513, 513, edge, edge, low_bits, number])
}

/// One in so many is any, and most of these are not among the five.
pub fn command(random: &mut Random, rate: usize) -> u8 {
    let any = random.next() as u8;
    let other = random.of(&[0x90, 0x80, 0xff, 0x01, 0x3f, any, any, any]);
    match random.one_in(rate) {
        true => other,
        false => random.of(&COMMANDS),
    }
}

/// Of a payload: around full fragments, short, long, and too long.
pub fn len(random: &mut Random, size: usize) -> usize {
    let full = size - 3 + random.below(6) * (size - 1);
    let by_number = size - 3 + (120 + random.below(20)) * (size - 1);
    match random.below(64) {
        0..=5 => random.below(4),
        6..=11 => size - 4 + random.below(4),
        12..=25 => full - 1 + random.below(3),
        26..=35 => random.below(3 * size),
        36..=55 => random.below(300),
        56..=58 => random.below(4_000),
        // where the numbers begin anew
        59 => (by_number - 1 + random.below(3)).min(65_535),
        60 => random.below(65_536),
        61 => 65_535 - random.below(600),
        62 => 65_535,
        _ => 65_536 + random.of(&[0, 0, 1, 2, 17, 300]),
    }
}

/// What the count is asked for, of any contents.
pub fn counted(random: &mut Random) -> (usize, usize) {
    let (good, bad) = (size(random), bad_size(random));
    let number = any(random);
    let short = random.below(65_536);
    let low_bits = random.of(&[short | 1 << 16, short | 1 << 32]);
    let edge = random.of(&[65_534, 65_535, 65_536, 65_537, usize::MAX]);
    (
        random.of(&[good, good, bad]),
        random.of(&[short, edge, edge, low_bits, number]),
    )
}

/// Past the last fragment, also by the low bits of one that isn't.
pub fn index(random: &mut Random, count: usize) -> usize {
    let within = random.below(count.max(1));
    let low_bits = [within | 1 << 16, within | 1 << 32, within | 1 << 63];
    let low_bits = random.of(&low_bits);
    let number = any(random);
    let edge = random.of(&[usize::MAX, usize::MAX - 1, 1 << 63, 65_535, 65_536]);
    random.of(&[count, count, count + 1, count + 128, edge, low_bits, number])
}

/// Of a buffer for so many bytes: most have just that. The longest are rare, as each byte is looked at after each fragment.
pub fn room(random: &mut Random, len: usize) -> usize {
    let longer = len + random.below(100);
    let longest = random.of(&[65_535, 66_000]);
    let shorter = random.below(len + 1);
    match random.below(64) {
        0 => longest,
        1..=5 => longer,
        6..=10 => len + 1,
        11..=14 => len.saturating_sub(1),
        15 => shorter,
        _ => len,
    }
}

/// Nothing is begun: all zeros, or anything behind a length of 0.
pub fn none_begun(random: &mut Random) -> Collection {
    let zeros = Collection::default();
    let any = Collection {
        len: 0,
        taken: random.next() as u16 >> random.below(16),
        cmd: random.next() as u8,
        seq: random.next() as u8,
    };
    random.of(&[zeros, zeros, any])
}

/// Sound or not, over a buffer. A taken that is large is rare, for as many bytes are kept.
pub fn collection(random: &mut Random, room: usize) -> Collection {
    if random.one_in(5) {
        return none_begun(random);
    }
    let room = room.min(65_534);
    let small = random.below(room + 2);
    let mut made_up = Collection {
        len: random.of(&[1, 2, small, room, room, room + 1, small]) as u16,
        taken: 0,
        cmd: random.next() as u8,
        seq: random.next() as u8 % 128,
    };
    made_up.taken = random.below(made_up.len.max(1) as usize) as u16;
    if random.one_in(2) {
        alter(random, &mut made_up, room);
    }
    made_up
}

/// One number at an edge.
pub fn alter(random: &mut Random, made_up: &mut Collection, room: usize) {
    let room = room.min(65_534) as u16;
    let (len, any) = (made_up.len, random.next() as u8);
    match random.below(8) {
        0 => made_up.taken = len.saturating_sub(1),
        1 => made_up.taken = len,
        2 => made_up.taken = len.saturating_add(1),
        3 => made_up.taken = random.of(&[0, len / 2, 65_535, 300]),
        4 => made_up.len = random.of(&[room, room + 1, 65_535]),
        5 => made_up.seq = random.of(&[126, 127]),
        6 => made_up.seq = random.of(&[128, 129, 255, any]),
        _ => made_up.cmd = any,
    }
}

/// A first fragment of another message.
pub fn first(random: &mut Random, size: usize, room: usize) -> Vec<u8> {
    let data = random.below(size.min(600));
    let declared = declared(random, room, data);
    let mut fragment = vec![0; 3 + data];
    random.fill(&mut fragment);
    let unknown = 128 | fragment[0];
    fragment[0] = random.of(&[0x81, 0x83, unknown]);
    fragment[1..3].copy_from_slice(&declared);
    fragment
}

/// A length, around the buffer and the data.
fn declared(random: &mut Random, room: usize, data: usize) -> [u8; 2] {
    let (any, between) = (random.below(65_536), (room + data) / 2);
    let edges = [
        0,
        data.saturating_sub(1),
        data,
        data + 1,
        room.saturating_sub(1),
        room,
        room + 1,
        between,
        65_535,
        any,
    ];
    (random.of(&edges).min(65_535) as u16).to_be_bytes()
}

/// What befalls a fragment's bytes on its way to a reader.
pub fn bend(
    random: &mut Random,
    fragment: &mut Vec<u8>,
    size: usize,
    room: usize,
    came: &Collection,
) {
    let len = fragment.len();
    match random.below(8) {
        0 => fragment.truncate(random.below(len)),
        1 => fragment.truncate(len - 1),
        2 => {
            let full = size.saturating_sub(len);
            let remains = came.len.saturating_sub(came.taken) as usize;
            let some = random.below(30);
            let more = random.of(&[1, full, full + 1, full + 2, some, remains.min(30)]);
            fragment.resize(len + more, 0xc3);
        }
        3 => fragment.clear(),
        4 => fragment[random.below(len.min(3))] ^= 1 << random.below(8),
        5 => {
            let number = fragment[0];
            let low = random.of(&[number.wrapping_sub(1), number.wrapping_add(1), 0, 127]);
            fragment[0] = random.of(&[low, number ^ 64, number ^ 128]);
        }
        6 if len >= 3 => {
            let declared = declared(random, room, len - 3);
            fragment[1..3].copy_from_slice(&declared);
        }
        // the head alone
        _ => fragment.truncate(if fragment[0] < 128 { 1 } else { 3 }),
    }
}

/// Any, for a collection as it stands.
pub fn fragment(random: &mut Random, size: usize, room: usize, came: &Collection) -> Vec<u8> {
    let size = size.min(600);
    let remains = came.len.saturating_sub(came.taken).min(600) as usize;
    let (some, any) = (random.below(30), random.below(600));
    let edges = [0, 1, 2, 3, 4, some, some, any];
    let by_size = [size.saturating_sub(1), size, size + 1];
    let by_due = [remains, remains + 1, remains + 2, remains + 3];
    let len = match random.below(3) {
        0 => random.of(&edges),
        1 => random.of(&by_size),
        _ => random.of(&by_due),
    };
    let mut fragment = vec![0; len];
    random.fill(&mut fragment);
    if len >= 1 {
        let (due, any) = (came.seq, fragment[0]);
        let other = random.of(&[due.wrapping_add(1), due ^ 64, any, any]);
        fragment[0] = random.of(&[due, due, due, 0x81, 0x83, 0x80, any | 128, other]);
    }
    if len >= 3 && fragment[0] >= 128 {
        let declared = declared(random, room, len - 3);
        fragment[1..3].copy_from_slice(&declared);
    }
    fragment
}
