//! Both ends of Bluetooth, each held to fragments that are cut by hand.
use snjofrask::Refusal;
use snjofrask::ble::{
    Command, Fragments, LARGEST_FRAGMENT, LARGEST_PAYLOAD, Message, Reader, SMALLEST_FRAGMENT,
    fragment_count,
};

/// The bytes as the standard has them.
const COMMANDS: [(u8, Command); 5] = [
    (0x81, Command::Ping),
    (0x82, Command::Keepalive),
    (0x83, Command::Msg),
    (0xBE, Command::Cancel),
    (0xBF, Command::Error),
];

/// Bytes of which no two neighbours are alike.
fn bytes(len: usize) -> Vec<u8> {
    (0..len).map(|i| (i % 251) as u8).collect()
}

/// Lengths of messages that stand at a boundary: none, the first fragment's end, the second's, and the wrap of numbers.
fn lengths(size: usize) -> [usize; 12] {
    let (first, later) = (size - 3, size - 1);
    let wrapped = first + 128 * later;
    let lengths = [0, 1, first - 1, first, first + 1, first + later];
    let longer = [
        first + later + 1,
        first + 127 * later,
        first + 127 * later + 1,
        wrapped,
        wrapped + 1,
        wrapped + later + 1,
    ];
    let mut all = [0; 12];
    all[..6].copy_from_slice(&lengths);
    all[6..].copy_from_slice(&longer.map(|len| len.min(LARGEST_PAYLOAD)));
    all
}

/// The fragments of a message, cut one after the other.
fn cut(size: usize, cmd: u8, payload: &[u8]) -> Vec<Vec<u8>> {
    let mut head = vec![
        cmd,
        (payload.len() / 256) as u8,
        (payload.len() % 256) as u8,
    ];
    let mut rest = payload;
    let mut fragments = Vec::new();
    loop {
        let (data, behind) = rest.split_at(rest.len().min(size - head.len()));
        fragments.push([head, data.to_vec()].concat());
        if behind.is_empty() {
            return fragments;
        }
        head = vec![((fragments.len() - 1) % 128) as u8];
        rest = behind;
    }
}

/// Every fragment as it must be, and the bytes behind it as they were.
fn must_be_written(size: usize, cmd: Command, payload: &[u8]) -> Vec<Vec<u8>> {
    let wanted = cut(size, cmd.byte(), payload);
    let mut fragments = Fragments::new(size, cmd, payload).unwrap();
    for (index, wanted) in wanted.iter().enumerate() {
        assert_eq!(
            fragments.left(),
            fragment_count(size, payload.len()).unwrap() - index
        );
        let mut buffer = vec![0xEE; size + 7];
        let fragment = fragments.next(&mut buffer).unwrap().unwrap();
        assert_eq!(fragment, wanted, "{index} of {size}");
        assert!(buffer[wanted.len()..].iter().all(|byte| *byte == 0xEE));
    }
    assert_eq!((fragments.left(), fragments.next(&mut [])), (0, Ok(None)));
    wanted
}

/// A reader takes all fragments, and has the message after the last.
fn must_be_read(reader: &mut Reader, size: usize, fragments: &[Vec<u8>], message: Message) {
    let (last, others) = fragments.split_last().unwrap();
    for fragment in others {
        assert_eq!(reader.take_fragment(size, fragment), Ok(None));
    }
    assert_eq!(reader.take_fragment(size, last), Ok(Some(message)));
}

/// What becomes of fragments, one after the other, in a buffer of so many bytes; and the buffer after them.
fn heard(
    size: usize,
    room: usize,
    fragments: &[&[u8]],
) -> (Vec<Result<Option<(u8, Vec<u8>)>, Refusal>>, Vec<u8>) {
    let mut buffer = vec![0xEE; room];
    let mut reader = Reader::new(&mut buffer);
    let hear = |fragment: &&[u8]| {
        reader
            .take_fragment(size, fragment)
            .map(|message| message.map(|message| (message.cmd, message.payload.to_vec())))
    };
    let answers = fragments.iter().map(hear).collect();
    (answers, buffer)
}

#[test]
fn every_byte_is_read() {
    for byte in 0..=u8::MAX {
        let named = COMMANDS.iter().find(|(number, _)| *number == byte);
        assert_eq!(Command::from_byte(byte), named.map(|(_, cmd)| *cmd));
    }
    for (byte, cmd) in COMMANDS {
        assert_eq!(cmd.byte(), byte);
    }
    assert_eq!((SMALLEST_FRAGMENT, LARGEST_FRAGMENT), (20, 512));
    assert_eq!(LARGEST_PAYLOAD, 65_535);
}

#[test]
fn every_size_returns_what_was_sent() {
    let bytes = bytes(LARGEST_PAYLOAD);
    let mut buffer = vec![0; LARGEST_PAYLOAD];
    let mut reader = Reader::new(&mut buffer);
    for size in SMALLEST_FRAGMENT..=LARGEST_FRAGMENT {
        for (at, len) in lengths(size).into_iter().enumerate() {
            let (byte, cmd) = COMMANDS[(size + at) % COMMANDS.len()];
            let payload = &bytes[..len];
            let fragments = must_be_written(size, cmd, payload);
            let message = Message { cmd: byte, payload };
            must_be_read(&mut reader, size, &fragments, message);
        }
    }
}

#[test]
fn the_longest_message_in_the_smallest_fragments() {
    let payload = bytes(LARGEST_PAYLOAD);
    let fragments = must_be_written(SMALLEST_FRAGMENT, Command::Msg, &payload);
    assert_eq!(fragments.len(), 3450);
    let numbers: Vec<u8> = fragments[1..].iter().map(|fragment| fragment[0]).collect();
    let wraps = numbers.windows(2).filter(|pair| *pair == [127, 0]).count();
    assert_eq!((numbers[0], wraps), (0, 26));
    // the buffer is exactly as long
    let mut buffer = vec![0; LARGEST_PAYLOAD];
    let message = Message {
        cmd: 0x83,
        payload: &payload,
    };
    must_be_read(
        &mut Reader::new(&mut buffer),
        SMALLEST_FRAGMENT,
        &fragments,
        message,
    );
}

#[test]
fn the_longest_message_in_the_largest_fragments() {
    let payload = bytes(LARGEST_PAYLOAD);
    let fragments = must_be_written(LARGEST_FRAGMENT, Command::Ping, &payload);
    assert_eq!(fragments.len(), 129);
    assert_eq!(fragments[128][0], 127);
}

#[test]
fn the_last_byte_of_a_fragment() {
    for size in [SMALLEST_FRAGMENT, 21, 185, LARGEST_FRAGMENT] {
        for (len, sizes) in [
            (0, vec![3]),
            (size - 3, vec![size]),
            (size - 2, vec![size, 2]),
            (2 * size - 4, vec![size, size]),
            (2 * size - 3, vec![size, size, 2]),
        ] {
            let fragments = must_be_written(size, Command::Msg, &bytes(len));
            let found: Vec<usize> = fragments.iter().map(Vec::len).collect();
            assert_eq!(found, sizes, "{len} bytes at {size}");
        }
    }
}

#[test]
fn sizes_that_there_are_not() {
    // of the last two the low bits are those of one that there is
    let high = 1 << (usize::BITS - 1);
    for size in [0, 1, 2, 3, 19, 513, usize::MAX, 65_536 + 20, high + 20] {
        // in front of all else that is wrong
        let long = [0; LARGEST_PAYLOAD + 1];
        let refused = Fragments::new(size, Command::Ping, &long).err();
        assert_eq!(refused, Some(Refusal::FragmentSize), "{size}");
        assert_eq!(fragment_count(size, long.len()).err(), refused);
        for fragment in [&[][..], &[0, 1], &[0x81, 0, 5, 1, 2], &[0x81, 0, 6]] {
            let (answers, buffer) = heard(size, 5, &[fragment]);
            assert_eq!(answers, [Err(Refusal::FragmentSize)]);
            assert_eq!(buffer, [0xEE; 5]);
        }
    }
}

#[test]
fn payloads_that_are_too_long() {
    for size in [SMALLEST_FRAGMENT, LARGEST_FRAGMENT] {
        assert!(fragment_count(size, LARGEST_PAYLOAD).is_ok());
        for len in [LARGEST_PAYLOAD + 1, usize::MAX] {
            assert_eq!(fragment_count(size, len), Err(Refusal::LongPayload));
        }
    }
}

#[test]
fn buffers_that_are_too_short_keep_the_place() {
    for (size, len) in [(20, 0), (20, 1), (20, 40), (512, 5), (512, 1024)] {
        let payload = bytes(len);
        let mut fragments = Fragments::new(size, Command::Error, &payload).unwrap();
        let mut buffer = vec![0xEE; size];
        for wanted in cut(size, 0xBF, &payload) {
            let left = fragments.left();
            for room in [0, 3, wanted.len() - 1, size - 1] {
                let refused = fragments.next(&mut buffer[..room]);
                assert_eq!(refused, Err(Refusal::ShortBuffer));
                assert_eq!(fragments.left(), left);
                assert!(buffer.iter().all(|byte| *byte == 0xEE));
            }
            assert_eq!(fragments.next(&mut buffer), Ok(Some(&wanted[..])));
            buffer.fill(0xEE);
        }
    }
}

#[test]
fn long_buffers_are_long() {
    // of their last 16 bits none is set
    let mut buffer = vec![0xEE; 65_536];
    let mut fragments = Fragments::new(20, Command::Ping, &[7]).unwrap();
    assert_eq!(fragments.next(&mut buffer), Ok(Some(&[0x81, 0, 1, 7][..])));
    assert!(buffer[4..].iter().all(|byte| *byte == 0xEE));
    let (answers, _) = heard(20, 65_536, &[&[0x81, 0, 1, 7]]);
    assert_eq!(answers, [Ok(Some((0x81, vec![7])))]);
}

#[test]
fn fragments_that_are_too_short() {
    // without a message begun, and inside one
    let none: &[&[u8]] = &[];
    let begun: &[&[u8]] = &[&[0x83, 0, 3, 1]];
    for before in [none, begun] {
        for fragment in [&[][..], &[0x80], &[0x83], &[0xFF, 0]] {
            let (answers, buffer) = heard(20, 3, &[before, &[fragment]].concat());
            assert_eq!(answers[before.len()], Err(Refusal::FragmentLength));
            assert_eq!(buffer[before.len()..], [0xEE; 3][before.len()..]);
        }
    }
    // a continuation has its head in one byte
    let (answers, _) = heard(20, 3, &[&[0]]);
    assert_eq!(answers, [Err(Refusal::FragmentNumber)]);
}

#[test]
fn fragments_without_data_are_taken() {
    let fragments: [&[u8]; 6] = [&[0x83, 0, 2], &[0], &[1, 7], &[2], &[3, 8], &[4]];
    let (answers, buffer) = heard(20, 4, &fragments);
    let mut wanted = vec![Ok(None); 4];
    wanted.push(Ok(Some((0x83, vec![7, 8]))));
    // after a whole message none is begun
    wanted.push(Err(Refusal::FragmentNumber));
    assert_eq!((answers, buffer), (wanted, vec![7, 8, 0xEE, 0xEE]));
}

#[test]
fn fragments_that_are_too_long() {
    for size in [SMALLEST_FRAGMENT, LARGEST_FRAGMENT] {
        let long = vec![0; size + 1];
        // before its number is looked at: none is begun
        assert_eq!(heard(size, 4, &[&long]).0, [Err(Refusal::FragmentLength)]);
        assert_eq!(
            heard(size, 4, &[&long[1..]]).0,
            [Err(Refusal::FragmentNumber)]
        );
        // and before its declared length
        let mut first = vec![0xFF; size + 1];
        assert_eq!(heard(size, 4, &[&first]).0, [Err(Refusal::FragmentLength)]);
        first.truncate(size);
        assert_eq!(heard(size, 4, &[&first]).0, [Err(Refusal::LongMessage)]);
        // every bit of a length counts
        for len in [512 + 4, 65_536 + 4] {
            let mut long = vec![0; len];
            long[..4].copy_from_slice(&[0x81, 0, 1, 7]);
            assert_eq!(heard(size, 4, &[&long]).0, [Err(Refusal::FragmentLength)]);
        }
    }
}

#[test]
fn wrong_numbers() {
    let payload = bytes(17 + 130 * 19);
    let fragments = cut(20, 0x83, &payload);
    let mut buffer = vec![0; payload.len()];
    let mut reader = Reader::new(&mut buffer);
    for (index, fragment) in fragments[..130].iter().enumerate() {
        assert_eq!(reader.take_fragment(20, fragment), Ok(None));
        // also a first one, of a KEEPALIVE too: the message that is begun is kept
        for number in (0..=u8::MAX).filter(|number| *number != fragments[index + 1][0]) {
            let refused = reader.take_fragment(20, &[number, 0, 1, 1]);
            assert_eq!(refused, Err(Refusal::FragmentNumber), "{number}");
            // in front of a declared length that the buffer can't hold
            let refused = reader.take_fragment(20, &[number, 0xFF, 0xFF, 1]);
            assert_eq!(refused, Err(Refusal::FragmentNumber), "{number}");
        }
    }
    // and of more data than the 19 bytes that are due
    let long = [fragments[130][0] + 1; 21];
    let refused = reader.take_fragment(512, &long);
    assert_eq!(refused, Err(Refusal::FragmentNumber));
    let message = Message {
        cmd: 0x83,
        payload: &payload,
    };
    assert_eq!(reader.take_fragment(20, &fragments[130]), Ok(Some(message)));
}

#[test]
fn continuations_with_none_begun() {
    for number in 0..128 {
        let (answers, buffer) = heard(20, 4, &[&[number, 1, 2]]);
        assert_eq!(answers, [Err(Refusal::FragmentNumber)]);
        assert_eq!(buffer, [0xEE; 4]);
    }
}

#[test]
fn messages_that_the_buffer_cannot_hold() {
    for (room, len) in [(0, 1), (3, 4), (16, 17), (300, 301), (256, 65_535)] {
        let fragments = cut(20, 0x83, &bytes(len));
        let (answers, buffer) = heard(20, room, &[&fragments[0]]);
        assert_eq!(answers, [Err(Refusal::LongMessage)]);
        assert_eq!(buffer, vec![0xEE; room]);
    }
    // in front of data that was not declared
    assert_eq!(
        heard(20, 0, &[&[0x83, 0, 1, 7, 7]]).0,
        [Err(Refusal::LongMessage)]
    );
}

#[test]
fn a_message_of_exactly_the_buffer() {
    for len in [0, 1, 17, 18, 300] {
        let payload = bytes(len);
        let fragments = cut(20, 0x83, &payload);
        let fragments: Vec<&[u8]> = fragments.iter().map(Vec::as_slice).collect();
        let (answers, buffer) = heard(20, len, &fragments);
        assert_eq!(answers.last(), Some(&Ok(Some((0x83, payload.clone())))));
        assert_eq!(buffer, payload);
    }
}

#[test]
fn more_data_than_is_due() {
    let (answers, buffer) = heard(20, 4, &[&[0x83, 0, 0, 1], &[0x83, 0, 0]]);
    assert_eq!(answers, [Err(Refusal::Excess), Ok(Some((0x83, vec![])))]);
    assert_eq!(buffer, [0xEE; 4]);

    let (answers, buffer) = heard(20, 9, &[&[0x83, 0, 2, 1, 2, 3]]);
    assert_eq!(answers, [Err(Refusal::Excess)]);
    assert_eq!(buffer, [0xEE; 9]);

    // the message goes on with what is due
    let fragments: [&[u8]; 3] = [&[0x83, 0, 3, 1], &[0, 2, 3, 4], &[0, 2, 3]];
    let (answers, buffer) = heard(20, 4, &fragments);
    let message = Ok(Some((0x83, vec![1, 2, 3])));
    assert_eq!(answers, [Ok(None), Err(Refusal::Excess), message]);
    assert_eq!(buffer, [1, 2, 3, 0xEE]);
}

#[test]
fn any_command_is_read() {
    for cmd in 0x80..=u8::MAX {
        let fragments: [&[u8]; 2] = [&[cmd, 0, 2, 1], &[0, 2]];
        let message = Ok(Some((cmd, vec![1, 2])));
        assert_eq!(heard(20, 2, &fragments).0, [Ok(None), message]);
    }
}

#[test]
fn fragments_that_are_not_full() {
    // at any size, one byte after the other
    let payload = bytes(300);
    let mut fragments = vec![vec![0x83, 1, 44]];
    for (at, byte) in payload.iter().enumerate() {
        fragments.push(vec![(at % 128) as u8, *byte]);
    }
    let mut buffer = [0; 300];
    let mut reader = Reader::new(&mut buffer);
    for size in [SMALLEST_FRAGMENT, LARGEST_FRAGMENT] {
        let message = Message {
            cmd: 0x83,
            payload: &payload,
        };
        must_be_read(&mut reader, size, &fragments, message);
    }
}

#[test]
fn a_message_that_is_given_up() {
    let mut buffer = [0; 40];
    let mut reader = Reader::new(&mut buffer);
    assert_eq!(reader.take_fragment(20, &[0x83, 0, 40, 9, 9]), Ok(None));
    reader.clear();
    let refused = reader.take_fragment(20, &[0, 9]);
    assert_eq!(refused, Err(Refusal::FragmentNumber));
    let payload = bytes(40);
    let message = Message {
        cmd: 0x81,
        payload: &payload,
    };
    must_be_read(&mut reader, 20, &cut(20, 0x81, &payload), message);
}

#[test]
fn refusals_say_what_they_are() {
    let refusals = [
        Refusal::FragmentSize,
        Refusal::FragmentLength,
        Refusal::FragmentNumber,
        Refusal::LongMessage,
        Refusal::Excess,
    ];
    let texts: Vec<String> = refusals.iter().map(Refusal::to_string).collect();
    for (at, text) in texts.iter().enumerate() {
        assert!(!text.is_empty() && !texts[..at].contains(text));
    }
    assert_eq!(refusals.map(|refusal| refusal as u8), [14, 15, 16, 17, 18]);
}
