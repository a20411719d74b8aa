//! What is small enough to be tried in full.
use crate::counts::Read;
use crate::definition::Message;
use crate::ours::Collection;
use crate::pair::Pair;
use crate::random::Random;

/// Collections that are sound and that are not, over buffers of 0 to 300 bytes.
const COLLECTIONS: [[u16; 4]; 14] = [
    [0, 0, 0, 0],
    [0, 7, 0x83, 200],
    [1, 0, 0x81, 0],
    [2, 1, 0x83, 5],
    [3, 0, 0x01, 127],
    [300, 0, 0xbf, 64],
    [300, 299, 0xbe, 127],
    [2, 2, 0x83, 5],
    [2, 3, 0x83, 5],
    [300, 300, 0x83, 0],
    [301, 0, 0x83, 0],
    [1, 0, 0x83, 128],
    [300, 1, 0x83, 255],
    [65_535, 65_534, 0xff, 0],
];

/// Fragments of up to 4 bytes: with every first byte, and some values of those behind it.
fn short_fragments() -> Vec<Vec<u8>> {
    let mut all = vec![vec![]];
    for head in 0..=255 {
        all.push(vec![head]);
        for high in [0, 1, 255] {
            all.push(vec![head, high]);
            for low in [0, 1, 2, 44, 45, 255] {
                all.push(vec![head, high, low]);
                // other data than before, so that a byte that is not written is seen
                all.push(vec![head, high, low, head ^ low ^ 0x5a]);
            }
        }
    }
    all
}

/// Each fragment alone, with each collection.
pub fn single_fragments(pair: &mut Pair, random: &mut Random) -> Result<(), String> {
    let fragments = short_fragments();
    for size in [20, 512, 19, 513] {
        for room in [0, 1, 2, 3, 300] {
            for [len, taken, cmd, seq] in COLLECTIONS {
                let collection = Collection {
                    len,
                    taken,
                    cmd: cmd as u8,
                    seq: seq as u8,
                };
                for fragment in &fragments {
                    if pair.collection() != collection {
                        pair.replace(collection, random);
                    }
                    pair.read(Read {
                        size,
                        fragment,
                        room,
                    })?;
                }
            }
        }
    }
    Ok(())
}

/// Messages of each length, written and read at a size, into a buffer of just so many bytes.
fn round_trips(
    pair: &mut Pair,
    random: &mut Random,
    pool: &[u8],
    size: usize,
    lens: impl Iterator<Item = usize>,
) -> Result<(), String> {
    for len in lens {
        pair.write_elsewhere(random);
        let message = Message {
            size,
            cmd: 0x83,
            payload: &pool[len % 7..][..len],
        };
        pair.replace(Collection::default(), random);
        pair.count(size, len)?;
        let cut = pair.cut(&message)?;
        for index in 0..=cut.len() {
            pair.write(&message, &cut, index, size)?;
        }
        pair.round_trip(&message, &cut, len)?;
    }
    Ok(())
}

/// Every size with no bytes and around its first two fragments, and some sizes with each length up to 2,000.
pub fn short_messages(pair: &mut Pair, random: &mut Random, pool: &[u8]) -> Result<(), String> {
    for size in 20..=512 {
        let lens = [0, 1, size - 3, size - 2, 2 * size - 4, 2 * size - 3];
        round_trips(pair, random, pool, size, lens.into_iter())?;
    }
    for size in [20, 21, 64, 185, 511, 512] {
        round_trips(pair, random, pool, size, 0..=2_000)?;
    }
    Ok(())
}

/// Every size with the longest message, and the smallest and the largest with each of the longest.
pub fn long_messages(
    pair: &mut Pair,
    random: &mut Random,
    pool: &[u8],
    longest: usize,
) -> Result<(), String> {
    for size in 20..=512 {
        round_trips(pair, random, pool, size, 65_535..=65_535)?;
    }
    for size in [20, 512] {
        round_trips(pair, random, pool, size, 65_536 - longest..=65_535)?;
    }
    Ok(())
}

/// The count of every length at every size, and around both.
pub fn counts(pair: &mut Pair) -> Result<(), String> {
    for size in 0..=520 {
        for len in 0..=65_540 {
            pair.count(size, len)?;
        }
    }
    Ok(())
}
