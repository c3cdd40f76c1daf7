use super::*;

fn play(list: &[u8]) -> (u32, Vec<u8>) {
    play_in(list, 4_000)
}

/// The code and the answers.
fn play_in(list: &[u8], room: usize) -> (u32, Vec<u8>) {
    let mut out = vec![0xee; room];
    let code = replay(list, &mut out);
    let (head, rest) = out.split_first_chunk::<HEAD>().unwrap();
    let len = u64::from_be_bytes(*head) as usize;
    (code, rest[..len].to_vec())
}

#[test]
fn a_new_board_looks_so() {
    let mut record = vec![0; RECORD];
    record[11] = 1; // buffered acceleration
    record[24] = 1; // active acceleration
    record[43] = 1; // rested
    record[53] = 1; // auto update
    record[58] = 1; // positive detector
    record[59] = 1; // negative detector
    let mut expected = vec![0x13];
    expected.resize(1 + PAIRS, 0);
    expected.extend([record.clone(), record].concat());
    assert_eq!(expected.len(), LOOK);
    assert_eq!(play(&[0x08]), (0, expected.clone()));
    assert_eq!(play(&[0x88]), (0, expected));
}

#[test]
fn words_are_read_and_written() {
    let list = [
        0x00, 0x02, 0x00, 0x10, 0x02, 0x00, 0x10, 0x01, 0xff, 0xff, 0x01, 0xff, 0xfe, 0x00, 0x4a,
        0x02, 0x02, 0x02,
    ];
    let answers = [
        0x00, 0x02, 0x10, 0x10, 0x00, 0x00, 0x00, 0x00, 0x00, 0x10, 0xff, 0xff, 0x10, 0xff, 0xfe,
        0x04,
    ];
    assert_eq!(play(&list), (0, answers.to_vec()));
}

#[test]
fn phases_are_cut_by_the_stage() {
    let power = [0x62, 0x01, 0x7f, 0xff];
    let a = [&[0x00][..], &power, &[0x09, 0, 1, 0x08]].concat();
    let b = [0x80, 0x62, 0x81, 0x7f, 0xff, 0x89, 0, 1, 0x88];
    let pairs = |list: &[u8]| play(list).1[4..4 + PAIRS].to_vec();
    let mut expected = vec![0; PAIRS];
    expected[6..8].copy_from_slice(&32_767_u16.to_be_bytes());
    assert_eq!(pairs(&a), expected);
    expected[6..8].copy_from_slice(&32_640_u16.to_be_bytes());
    assert_eq!(pairs(&b), expected);
}

/// Gate 1 calls for a command error: mask ffff, then a power that is too large.
fn call(at: u8) -> Vec<u8> {
    vec![at, 0x2f, at | 1, 0xff, 0xff, at, 0x62, at | 1, 0x80, 0x00]
}

#[test]
fn slips_are_kept_and_closed() {
    let list = [
        call(0),
        vec![0x05, 0x05, 0x06, 2, 0, 0, 0x06, 1, 0, 0, 0x06, 1, 0, 0],
    ]
    .concat();
    let expected = [0, 0, 0, 5, 0x11, 1, 6, 0x12, 0, 0x12];
    assert_eq!(play(&list), (0, expected.to_vec()));
}

#[test]
fn slips_are_closed_elsewhere() {
    let list = [
        call(0),
        vec![0x05, 0x07, 1, 0, 0],
        call(0x80),
        vec![0x85, 0x07, 1, 0, 0, 0x86, 1, 0, 0, 0x85, 0x06, 1, 0, 0],
    ]
    .concat();
    let expected = [
        0, 0, 0, 5, 0x11, 1, // taken at a
        7, // b has no slip out
        0, 0, 0, 5, 0x11, 1,    // taken at b
        0,    // closed at b, and the slip of b goes to a
        0x12, // none is kept under b
        6,    // b calls no more
        0,    // closed at a
    ];
    assert_eq!(play(&list), (0, expected.to_vec()));
}

/// Both boards collect into list 2, which has room for two, and both read and remove there.
#[test]
fn events_are_listed() {
    let at = |board: u8, list: u8, place: u8| [board | 0x0b, list, 0, 0, 0, 0, 0, 0, 0, place];
    let list = [
        &call(0)[..],
        &call(0x80),
        &[0x89, 1, 2, 0x0a, 1, 2, 0x8a, 1, 1],
        &[0x8a, 2, 2, 0x82, 0x8a, 0, 2, 0x0a, 3, 0],
        &at(0x80, 2, 0),
        &at(0, 2, 1),
        &at(0, 1, 9),
        &at(0, 0, 0),
        &[0x8c, 2, 0x0c, 2, 0x0c, 3],
    ]
    .concat();
    let expected = [
        &[0, 0, 0, 5, 0, 0, 0, 5, 0, 0, 0][..],
        &[0, 4, 5, 5],
        &[0x14, 1, 7, 0, 0, 0, 0, 0, 0, 0, 0, 0, 0, 0, 1],
        &[0x16],
        &[0x14, 1, 7, 0, 0, 1, 2, 0, 0, 0, 0, 0, 0, 0, 1],
        &[0x16],
        &[0x15, 1, 7, 0, 0, 0, 0, 0x16, 0x16],
    ]
    .concat();
    assert_eq!(play(&list), (0, expected));
}

#[test]
fn a_collect_finds_no_room() {
    let list = [&call(0)[..], &[0x0a, 1, 0, 0x0a, 1, 3, 0x0a, 1, 0, 0x08]].concat();
    let (code, answers) = play(&list);
    assert_eq!((code, &answers[4..8]), (0, &[0x0a, 0, 0, 0x13][..]));
    let record = &answers[8 + PAIRS..][..RECORD];
    // Events, and those that were found.
    assert_eq!(record[54..56], [0x80, 0x80]);
}

#[test]
fn returns_of_event_lists() {
    let place = [0; 8];
    let read_at = |list: u8| [&[0x02, 0x0b, list][..], &place].concat();
    assert_eq!(play(&read_at(3)), (0, vec![4, 0x16]));
    assert_eq!(play(&read_at(4)), (3, vec![4]));
    assert_eq!(play(&read_at(4)[..10]), (2, vec![4]));
    assert_eq!(play(&[0x02, 0x0a, 0, 3]), (0, vec![4, 5]));
    assert_eq!(play(&[0x02, 0x0a, 0, 4]), (3, vec![4]));
    assert_eq!(play(&[0x02, 0x0a, 255]), (2, vec![4]));
    assert_eq!(play(&[0x02, 0x8c, 3]), (0, vec![4, 0x16]));
    assert_eq!(play(&[0x02, 0x8c, 255]), (3, vec![4]));
    assert_eq!(play(&[0x02, 0x8c]), (2, vec![4]));
    let listed = [&call(0)[..], &[0x0a, 1, 3, 0x0c, 3]].concat();
    let room = HEAD + 5 + 1 + EVENT;
    assert_eq!(
        play_in(&listed, room),
        (0, vec![0, 0, 0, 5, 0, 0x15, 1, 7, 0, 0, 0, 0])
    );
    assert_eq!(play_in(&listed, room - 1), (4, vec![0, 0, 0, 5, 0]));
}

#[test]
fn returns() {
    assert_eq!(play(&[]), (0, vec![]));
    assert_eq!(play(&[0x02, 0x0d]), (1, vec![4]));
    assert_eq!(play(&[0x02, 0xff]), (1, vec![4]));
    assert_eq!(play(&[0x02, 0x03, 0, 0, 0, 0, 0]), (2, vec![4]));
    assert_eq!(play(&[0x02, 0x03, 0, 0, 8, 0, 0, 0]), (3, vec![4]));
    assert_eq!(play(&[0x02, 0x03, 0, 0, 7, 0, 0, 7]), (0, vec![4, 0]));
    assert_eq!(play(&[0x02, 0x06, 3, 0, 0]), (3, vec![4]));
    assert_eq!(play(&[0x02, 0x87, 0, 0, 0]), (3, vec![4]));
    assert_eq!(play_in(&[0x02, 0x08], HEAD + LOOK), (4, vec![4]));
    assert_eq!(play_in(&[0x02, 0x08], HEAD + 1 + LOOK).0, 0);
    assert_eq!(play_in(&[0x02, 0x02], HEAD + 1), (4, vec![4]));
    assert_eq!(replay(&[], &mut [0; HEAD - 1]), 4);
}

#[test]
fn entries_are_coded_and_decoded() {
    let input = Input {
        count: -32_768,
        positive: true,
        negative: false,
        home: true,
    };
    let acts = [
        Act::Command(0x4d),
        Act::Write(0xfedc),
        Act::Read,
        Act::Cycle([input, Input::default()]),
        Act::Reset,
        Act::Take,
        Act::Close {
            gate: 0,
            word: 0xff9f,
        },
        Act::CloseElsewhere { gate: 1, word: 7 },
        Act::Look,
        Act::Run(65_535),
        Act::Collect { gate: 255, list: 3 },
        Act::ReadAt {
            list: 2,
            place: 0xfedc_ba98_7654_3210,
        },
        Act::Remove { list: 1 },
    ];
    for side in [Side::A, Side::B] {
        for act in acts {
            let entry = Entry { side, act };
            let mut list = Vec::new();
            entry.encode(&mut list);
            assert_eq!(Entry::decode(&list), Ok((entry, &[][..])));
        }
    }
}
