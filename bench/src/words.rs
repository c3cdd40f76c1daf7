//! Acts, answers and looks in words.

use crate::board::Input;
use crate::replay::{Act, EVENT, EVENT_READ, Entry, LOOK, PAIRS, RECORD, Side};

pub const COMMANDS: [(u8, &str); 37] = [
    (0x01, "SET_1"),
    (0x02, "SET_2"),
    (0x08, "SET_I"),
    (0x31, "GET_STATUS"),
    (0x09, "SET_PRFL_TRAP"),
    (0x0a, "SET_PRFL_VEL"),
    (0x46, "STOP"),
    (0x1a, "UPDATE"),
    (0x5c, "SET_AUTO_UPDATE_ON"),
    (0x5d, "SET_AUTO_UPDATE_OFF"),
    (0x17, "SET_TIME_BRK"),
    (0x18, "SET_POS_BRK"),
    (0x19, "SET_NEG_BRK"),
    (0x1b, "SET_ACTL_POS_BRK"),
    (0x1c, "SET_ACTL_NEG_BRK"),
    (0x35, "SET_MTN_CMPLT_BRK"),
    (0x5e, "SET_EXT_BRK"),
    (0x6d, "SET_BRK_OFF"),
    (0x74, "SET_PHASE_2"),
    (0x73, "SET_PHASE_3"),
    (0x77, "SET_BUF_MTR_CMD"),
    (0x62, "SET_MTR_CMD"),
    (0x34, "RST_STATUS"),
    (0x2f, "SET_INTRPT_MASK"),
    (0x5b, "MULTI_UPDATE"),
    (0x10, "SET_POS"),
    (0x11, "SET_VEL"),
    (0x12, "SET_ACC"),
    (0x16, "SET_BRK_PNT"),
    (0x4d, "SET_ACTL_POS"),
    (0x4a, "GET_POS"),
    (0x4b, "GET_VEL"),
    (0x4c, "GET_ACC"),
    (0x1d, "GET_TRGT_POS"),
    (0x1e, "GET_TRGT_VEL"),
    (0x37, "GET_ACTL_POS"),
    (0x3e, "GET_TIME"),
];

pub const ACTS: [&str; 13] = [
    "command",
    "write",
    "read",
    "cycle",
    "reset",
    "take",
    "close",
    "close elsewhere",
    "look",
    "run",
    "collect",
    "read at a place",
    "remove",
];

pub const REFUSALS: [(u8, &str); 8] = [
    (1, "1 Unknown"),
    (2, "2 PacketOpen"),
    (3, "3 NotTaking"),
    (4, "4 NotGiving"),
    (5, "5 OutOfRange"),
    (6, "6 NoCall"),
    (7, "7 NoSlip"),
    (10, "10 NoRoom"),
];

/// The events with their places.
pub const EVENTS: [(u32, &str); 6] = [
    (0, "motion complete"),
    (1, "wrap-around"),
    (2, "breakpoint reached"),
    (5, "positive limit"),
    (6, "negative limit"),
    (7, "command error"),
];

pub const BREAKPOINTS: [&str; 8] = [
    "off",
    "time",
    "target above",
    "target below",
    "actual above",
    "actual below",
    "motion complete",
    "external",
];

/// The event lists, with the room of each.
pub const LISTS: [&str; 4] = [
    "list 0, of 0",
    "list 1, of 1",
    "list 2, of 2",
    "list 3, of 7",
];

pub const STOPS: [&str; 5] = [
    "0 played to the end",
    "1 no such entry",
    "2 cut off",
    "3 bad operand",
    "4 no room",
];

/// Which of `ACTS` an act is.
pub fn kind(act: Act) -> usize {
    match act {
        Act::Command(_) => 0,
        Act::Write(_) => 1,
        Act::Read => 2,
        Act::Cycle(_) => 3,
        Act::Reset => 4,
        Act::Take => 5,
        Act::Close { .. } => 6,
        Act::CloseElsewhere { .. } => 7,
        Act::Look => 8,
        Act::Run(_) => 9,
        Act::Collect { .. } => 10,
        Act::ReadAt { .. } => 11,
        Act::Remove { .. } => 12,
    }
}

pub fn entry(entry: Entry) -> String {
    let board = match entry.side {
        Side::A => "board a",
        Side::B => "board b",
    };
    format!("{board}: {}", act(entry.act))
}

fn act(act: Act) -> String {
    let name = ACTS[kind(act)];
    match act {
        Act::Command(code) => format!("{name} {code:02x} {}", command(code)),
        Act::Write(word) => format!("{name} {word:04x}"),
        Act::Cycle([one, two]) => format!("{name}, gate 1 {}, gate 2 {}", input(one), input(two)),
        Act::Close { gate, word } | Act::CloseElsewhere { gate, word } => {
            format!("{name}, gate {} with {word:04x}", gate + 1)
        }
        Act::Run(cycles) => format!("{name} of {cycles} cycles"),
        Act::Collect { gate, list } => format!("{name}, gate {gate} into list {list}"),
        Act::ReadAt { list, place } => format!("{name}, list {list} at {place}"),
        Act::Remove { list } => format!("{name}, list {list}"),
        Act::Read | Act::Reset | Act::Take | Act::Look => name.to_string(),
    }
}

fn command(code: u8) -> &'static str {
    COMMANDS
        .iter()
        .find(|(known, _)| *known == code)
        .map_or("(unknown)", |(_, name)| name)
}

fn refusal(number: u8) -> &'static str {
    REFUSALS
        .iter()
        .find(|(known, _)| *known == number)
        .map_or("(unknown)", |(_, name)| name)
}

fn input(input: Input) -> String {
    let switches = [
        (input.positive, " +limit"),
        (input.negative, " -limit"),
        (input.home, " home"),
    ];
    let active: String = switches
        .iter()
        .filter(|(active, _)| *active)
        .map(|(_, name)| *name)
        .collect();
    format!("count {}{active}", input.count)
}

/// How many bytes an answer has that begins with this byte.
pub fn answer_len(first: u8) -> usize {
    match first {
        0x10 => 3,
        0x11 => 2,
        0x13 => LOOK,
        0x14 => EVENT_READ,
        0x15 => 1 + EVENT,
        _ => 1,
    }
}

/// An answer, field by field.
pub fn answer(bytes: &[u8]) -> Vec<(String, String)> {
    let field = |value: String| vec![("answer".to_string(), value)];
    match *bytes {
        [0x00] => field("accepted".into()),
        [number @ (1..=7 | 10)] => field(format!("refused, {}", refusal(number))),
        [0x10, high, low] => field(format!("word {:04x}", u16::from_be_bytes([high, low]))),
        [0x11, gate] => field(format!("slip of gate {gate}")),
        [0x12] => field("no slip is kept there".into()),
        [0x13, ref look @ ..] if look.len() == LOOK - 1 => look_fields(look),
        [0x14, ref read @ ..] if read.len() == EVENT_READ - 1 => event_fields("read", read),
        [0x15, ref event @ ..] if event.len() == EVENT => event_fields("taken out", event),
        [0x16] => field("there is no event".into()),
        _ => field(format!("bytes {bytes:02x?}")),
    }
}

/// The fields of a record: name, bytes, whether signed.
const FIELDS: [(&str, usize, bool); 26] = [
    ("buffered destination", 4, true),
    ("buffered velocity", 4, false),
    ("buffered acceleration", 4, true),
    ("buffered mode", 1, false),
    ("active destination", 4, true),
    ("active velocity", 4, false),
    ("active acceleration", 4, true),
    ("active mode", 1, false),
    ("buffered power", 2, false),
    ("active power", 2, false),
    ("P", 8, true),
    ("V", 4, true),
    ("halted", 1, false),
    ("rested", 1, false),
    ("actual position", 4, true),
    ("breakpoint mode", 1, false),
    ("point", 4, true),
    ("auto update", 1, false),
    ("events", 1, false),
    ("events found", 1, false),
    ("mask", 2, false),
    ("positive detector armed", 1, false),
    ("negative detector armed", 1, false),
    ("kind of motor", 1, false),
    ("slip out", 1, false),
    ("clock", 4, false),
];

/// Where the breakpoint's mode and the events stand in a record.
pub const BREAKPOINT_AT: usize = 48;
pub const EVENTS_AT: usize = 54;

/// The fields of an event, and the next place where that stands behind it.
fn event_fields(what: &str, bytes: &[u8]) -> Vec<(String, String)> {
    let (event, next) = bytes.split_at(EVENT);
    let field = |name: &str, bytes| (name.to_string(), number(bytes, false).to_string());
    let mut fields = vec![
        ("answer".to_string(), format!("event {what}")),
        field("gate", &event[..1]),
        field("place of its bit", &event[1..2]),
        field("its clock", &event[2..]),
    ];
    if !next.is_empty() {
        let next = number(next, false) as u64;
        fields.push(("next place".to_string(), next.to_string()));
    }
    fields
}

fn look_fields(look: &[u8]) -> Vec<(String, String)> {
    let (pairs, records) = look.split_at(PAIRS);
    let names = [
        "gate 1 phase A",
        "gate 1 phase B",
        "gate 2 phase A",
        "gate 2 phase B",
    ];
    let mut fields: Vec<_> = names
        .iter()
        .zip(pairs.chunks(4))
        .map(|(name, bytes)| (name.to_string(), number(bytes, true).to_string()))
        .collect();
    for (gate, mut record) in records.chunks(RECORD).enumerate() {
        for (name, len, signed) in FIELDS {
            let (bytes, rest) = record.split_at(len);
            let value = number(bytes, signed).to_string();
            fields.push((format!("gate {} {name}", gate + 1), value));
            record = rest;
        }
    }
    fields
}

fn number(bytes: &[u8], signed: bool) -> i64 {
    let start = if signed && bytes[0] >= 0x80 { -1 } else { 0 };
    bytes
        .iter()
        .fold(start, |number, byte| number << 8 | i64::from(*byte))
}

#[cfg(test)]
mod tests {
    use super::*;

    #[test]
    fn the_fields_fill_a_record() {
        assert_eq!(FIELDS.iter().map(|(_, len, _)| len).sum::<usize>(), RECORD);
        let offset = |name| -> usize {
            let before = FIELDS.iter().take_while(|(field, ..)| *field != name);
            before.map(|(_, len, _)| len).sum()
        };
        assert_eq!(offset("breakpoint mode"), BREAKPOINT_AT);
        assert_eq!(offset("events"), EVENTS_AT);
    }

    #[test]
    fn numbers_keep_their_sign() {
        assert_eq!(number(&[0xff, 0xfe], true), -2);
        assert_eq!(number(&[0xff, 0xfe], false), 65_534);
    }

    #[test]
    fn events_are_told_field_by_field() {
        let bytes = [
            0x14, 2, 7, 0, 0, 1, 4, 0xff, 0xff, 0xff, 0xff, 0xff, 0xff, 0xff, 0xff,
        ];
        let told = |bytes: &[u8]| -> Vec<_> { answer(bytes).into_iter().map(|(_, v)| v).collect() };
        let read = ["event read", "2", "7", "260", "18446744073709551615"];
        assert_eq!(told(&bytes), read);
        assert_eq!(
            told(&[0x15, 1, 0, 0, 0, 0, 9]),
            ["event taken out", "1", "0", "9"]
        );
        assert_eq!(told(&[0x0a]), ["refused, 10 NoRoom"]);
    }
}
