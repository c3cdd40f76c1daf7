//! Plays a list of acts against two new boards, as docs/REPLAY.md defines it.

use crate::board::{Board, Gate, Input, Refusal, Registers};
use crate::event_list::{Event, EventList};

/// The bytes that say how long the answers are.
pub const HEAD: usize = 8;
/// A look with its first byte.
pub const LOOK: usize = 1 + PAIRS + 2 * RECORD;
pub const PAIRS: usize = 16;
pub const RECORD: usize = 66;
/// An event.
pub const EVENT: usize = 6;
/// An event that was read, with its first byte; no answer but a look is longer.
pub const EVENT_READ: usize = 1 + EVENT + 8;

/// How many events there is room for in each of the event lists.
pub const CAPACITIES: [usize; 4] = [0, 1, 2, 7];

/// The bit of an entry's first byte that says board b.
const AT_B: u8 = 0x80;

#[derive(Clone, Copy, Debug, PartialEq, Eq)]
pub enum Side {
    A,
    B,
}

impl Side {
    pub fn other(self) -> Side {
        match self {
            Side::A => Side::B,
            Side::B => Side::A,
        }
    }
}

/// An act of a list. Gates are 0 and 1 here, and 1 and 2 in the bytes; but that of a collect is
/// any byte. `list` is one of the event lists.
#[derive(Clone, Copy, Debug, PartialEq, Eq)]
pub enum Act {
    Command(u8),
    Write(u16),
    Read,
    Cycle([Input; 2]),
    Reset,
    Take,
    Close { gate: usize, word: u16 },
    CloseElsewhere { gate: usize, word: u16 },
    Look,
    Run(u16),
    Collect { gate: u8, list: usize },
    ReadAt { list: usize, place: u64 },
    Remove { list: usize },
}

#[derive(Clone, Copy, Debug, PartialEq, Eq)]
pub struct Entry {
    pub side: Side,
    pub act: Act,
}

/// Why a list was not played to its end.
#[derive(Clone, Copy, Debug, PartialEq, Eq)]
#[repr(u32)]
pub enum Stop {
    NoEntry = 1,
    CutOff,
    BadOperand,
    NoRoom,
}

impl Entry {
    /// The first entry of a list, and the list after it.
    #[inline(always)]
    pub fn decode(list: &[u8]) -> Result<(Entry, &[u8]), Stop> {
        let (&first, rest) = list.split_first().ok_or(Stop::CutOff)?;
        let side = if first & AT_B == 0 { Side::A } else { Side::B };
        let (act, rest) = match first & !AT_B {
            0x00 => {
                let ([code], rest) = operands(rest)?;
                (Act::Command(code), rest)
            }
            0x01 => {
                let (word, rest) = operands(rest)?;
                (Act::Write(u16::from_be_bytes(word)), rest)
            }
            0x02 => (Act::Read, rest),
            0x03 => {
                let ([a, b, c, d, e, f], rest) = operands(rest)?;
                let inputs = [input([a, b], c)?, input([d, e], f)?];
                (Act::Cycle(inputs), rest)
            }
            0x04 => (Act::Reset, rest),
            0x05 => (Act::Take, rest),
            0x06 => {
                let (gate, word, rest) = closing(rest)?;
                (Act::Close { gate, word }, rest)
            }
            0x07 => {
                let (gate, word, rest) = closing(rest)?;
                (Act::CloseElsewhere { gate, word }, rest)
            }
            0x08 => (Act::Look, rest),
            0x09 => {
                let (cycles, rest) = operands(rest)?;
                (Act::Run(u16::from_be_bytes(cycles)), rest)
            }
            0x0a => {
                let ([gate, list], rest) = operands(rest)?;
                let list = event_list(list)?;
                (Act::Collect { gate, list }, rest)
            }
            0x0b => {
                let (list, place, rest) = reading(rest)?;
                (Act::ReadAt { list, place }, rest)
            }
            0x0c => {
                let ([list], rest) = operands(rest)?;
                let list = event_list(list)?;
                (Act::Remove { list }, rest)
            }
            _ => return Err(Stop::NoEntry),
        };
        Ok((Entry { side, act }, rest))
    }

    /// Puts the entry at the end of a list.
    pub fn encode(self, list: &mut Vec<u8>) {
        let at = match self.side {
            Side::A => 0,
            Side::B => AT_B,
        };
        match self.act {
            Act::Command(code) => list.extend([at, code]),
            Act::Write(word) => put_word(list, at | 0x01, word),
            Act::Read => list.push(at | 0x02),
            Act::Cycle(inputs) => {
                list.push(at | 0x03);
                for input in inputs {
                    list.extend(input.count.to_be_bytes());
                    list.push(switches(input));
                }
            }
            Act::Reset => list.push(at | 0x04),
            Act::Take => list.push(at | 0x05),
            Act::Close { gate, word } => {
                list.push(at | 0x06);
                put_word(list, gate as u8 + 1, word);
            }
            Act::CloseElsewhere { gate, word } => {
                list.push(at | 0x07);
                put_word(list, gate as u8 + 1, word);
            }
            Act::Look => list.push(at | 0x08),
            Act::Run(cycles) => put_word(list, at | 0x09, cycles),
            Act::Collect { gate, list: number } => list.extend([at | 0x0a, gate, number as u8]),
            Act::ReadAt {
                list: number,
                place,
            } => {
                list.extend([at | 0x0b, number as u8]);
                list.extend(place.to_be_bytes());
            }
            Act::Remove { list: number } => list.extend([at | 0x0c, number as u8]),
        }
    }
}

fn put_word(list: &mut Vec<u8>, before: u8, word: u16) {
    list.push(before);
    list.extend(word.to_be_bytes());
}

fn switches(input: Input) -> u8 {
    u8::from(input.positive) | u8::from(input.negative) << 1 | u8::from(input.home) << 2
}

fn operands<const N: usize>(list: &[u8]) -> Result<([u8; N], &[u8]), Stop> {
    let (operands, rest) = list.split_first_chunk().ok_or(Stop::CutOff)?;
    Ok((*operands, rest))
}

fn input(count: [u8; 2], switches: u8) -> Result<Input, Stop> {
    if switches > 7 {
        return Err(Stop::BadOperand);
    }
    Ok(Input {
        count: i16::from_be_bytes(count),
        positive: switches & 1 != 0,
        negative: switches & 2 != 0,
        home: switches & 4 != 0,
    })
}

fn closing(list: &[u8]) -> Result<(usize, u16, &[u8]), Stop> {
    let ([gate, high, low], rest) = operands(list)?;
    match gate {
        1 | 2 => Ok((usize::from(gate) - 1, u16::from_be_bytes([high, low]), rest)),
        _ => Err(Stop::BadOperand),
    }
}

fn reading(list: &[u8]) -> Result<(usize, u64, &[u8]), Stop> {
    let ([number, place @ ..], rest) = operands::<9>(list)?;
    Ok((event_list(number)?, u64::from_be_bytes(place), rest))
}

fn event_list(number: u8) -> Result<usize, Stop> {
    let number = usize::from(number);
    if number < CAPACITIES.len() {
        Ok(number)
    } else {
        Err(Stop::BadOperand)
    }
}

#[derive(Clone, Copy, Debug, PartialEq, Eq)]
pub enum Answer {
    Accepted,
    Refused(Refusal),
    Word(u16),
    Slip(usize),
    NoneKept,
    Look,
    EventRead { event: Event, next: u64 },
    EventRemoved(Event),
    NoEvent,
}

impl From<Result<(), Refusal>> for Answer {
    fn from(result: Result<(), Refusal>) -> Answer {
        match result {
            Ok(()) => Answer::Accepted,
            Err(refusal) => Answer::Refused(refusal),
        }
    }
}

/// A board with the slips that are kept under it.
struct Seat<const STEP: i32> {
    board: Board<STEP>,
    kept: [bool; 2],
}

impl<const STEP: i32> Seat<STEP> {
    fn new() -> Self {
        Seat {
            board: Board::new(),
            kept: [false; 2],
        }
    }

    #[inline(always)]
    fn play<const OTHER: i32>(
        &mut self,
        other: &mut Seat<OTHER>,
        lists: &mut EventLists,
        act: Act,
    ) -> Answer {
        match act {
            Act::Command(code) => self.board.command(code).into(),
            Act::Write(word) => self.board.write(word).into(),
            Act::Read => match self.board.read() {
                Ok(word) => Answer::Word(word),
                Err(refusal) => Answer::Refused(refusal),
            },
            Act::Cycle(inputs) => {
                self.board.cycle(inputs);
                Answer::Accepted
            }
            Act::Reset => {
                self.board.reset();
                Answer::Accepted
            }
            Act::Take => self.take(),
            Act::Close { gate, word } => self.close(gate, word),
            Act::CloseElsewhere { gate, word } => self.close_elsewhere(other, gate, word),
            Act::Look => Answer::Look,
            Act::Run(cycles) => {
                self.run(cycles);
                Answer::Accepted
            }
            Act::Collect { gate, list } => self.board.collect(gate, &mut lists[list]).into(),
            Act::ReadAt { list, place } => read_at(&lists[list], place),
            Act::Remove { list } => remove(&mut lists[list]),
        }
    }

    /// Not inlined, so that the loop has the registers for itself.
    #[inline(never)]
    fn run(&mut self, cycles: u16) {
        for _ in 0..cycles {
            self.board.cycle([Input::default(); 2]);
        }
    }

    fn take(&mut self) -> Answer {
        match self.board.take() {
            Ok(gate) => {
                self.kept[gate] = true;
                Answer::Slip(gate)
            }
            Err(refusal) => Answer::Refused(refusal),
        }
    }

    fn close(&mut self, gate: usize, word: u16) -> Answer {
        if !self.kept[gate] {
            return Answer::NoneKept;
        }
        let result = self.board.close(gate, word);
        if result.is_ok() {
            self.kept[gate] = false;
        }
        result.into()
    }

    fn close_elsewhere<const OTHER: i32>(
        &mut self,
        other: &mut Seat<OTHER>,
        gate: usize,
        word: u16,
    ) -> Answer {
        if !self.kept[gate] {
            return Answer::NoneKept;
        }
        let result = other.board.close(gate, word);
        if result.is_ok() {
            // The slip of this board is spent, and that of the other board takes its place.
            self.kept[gate] = std::mem::take(&mut other.kept[gate]);
        }
        result.into()
    }
}

type EventLists = [EventList; CAPACITIES.len()];

fn read_at(list: &EventList, place: u64) -> Answer {
    match list.read(place) {
        Some((event, next)) => Answer::EventRead { event, next },
        None => Answer::NoEvent,
    }
}

fn remove(list: &mut EventList) -> Answer {
    match list.remove() {
        Some(event) => Answer::EventRemoved(event),
        None => Answer::NoEvent,
    }
}

/// The two boards that a list is played against, and the event lists beside them.
pub struct Boards {
    a: Seat<1>,
    b: Seat<128>,
    lists: EventLists,
}

impl Boards {
    pub fn new() -> Self {
        Boards {
            a: Seat::new(),
            b: Seat::new(),
            lists: CAPACITIES.map(EventList::new),
        }
    }

    #[inline(always)]
    pub fn play(&mut self, entry: Entry) -> Answer {
        match entry.side {
            Side::A => self.a.play(&mut self.b, &mut self.lists, entry.act),
            Side::B => self.b.play(&mut self.a, &mut self.lists, entry.act),
        }
    }

    fn look(&self, side: Side) -> [u8; LOOK] {
        match side {
            Side::A => look(&self.a.board),
            Side::B => look(&self.b.board),
        }
    }

    pub fn gates(&self, side: Side) -> &[Gate; 2] {
        match side {
            Side::A => self.a.board.gates(),
            Side::B => self.b.board.gates(),
        }
    }

    pub fn list(&self, number: usize) -> &EventList {
        &self.lists[number]
    }

    pub fn current(&self, side: Side) -> usize {
        match side {
            Side::A => self.a.board.current(),
            Side::B => self.b.board.current(),
        }
    }

    pub fn takes_words(&self, side: Side) -> bool {
        match side {
            Side::A => self.a.board.takes_words(),
            Side::B => self.b.board.takes_words(),
        }
    }

    pub fn gives_words(&self, side: Side) -> bool {
        match side {
            Side::A => self.a.board.gives_words(),
            Side::B => self.b.board.gives_words(),
        }
    }
}

/// The answers so far, in the room that there is for them.
struct Answers<'a> {
    room: &'a mut [u8],
    used: usize,
}

impl Answers<'_> {
    fn add(&mut self, answer: Answer, look: impl FnOnce() -> [u8; LOOK]) -> Result<(), Stop> {
        match answer {
            Answer::Accepted => self.put(&[0x00]),
            Answer::Refused(refusal) => self.put(&[refusal as u8]),
            Answer::Word(word) => {
                let [high, low] = word.to_be_bytes();
                self.put(&[0x10, high, low])
            }
            Answer::Slip(gate) => self.put(&[0x11, gate as u8 + 1]),
            Answer::NoneKept => self.put(&[0x12]),
            Answer::Look => self.put(&look()),
            Answer::EventRead { event, next } => self.put(&event_read(event, next)),
            Answer::EventRemoved(event) => self.put(&event_removed(event)),
            Answer::NoEvent => self.put(&[0x16]),
        }
    }

    fn put(&mut self, bytes: &[u8]) -> Result<(), Stop> {
        let room = self.room.get_mut(self.used..self.used + bytes.len());
        room.ok_or(Stop::NoRoom)?.copy_from_slice(bytes);
        self.used += bytes.len();
        Ok(())
    }
}

/// Plays a list and writes the answers into `out`. Slips that are still kept at the end stay
/// so: to close them with ffff would change nothing that can be seen.
pub fn replay(list: &[u8], out: &mut [u8]) -> u32 {
    let Some((head, room)) = out.split_first_chunk_mut::<HEAD>() else {
        return Stop::NoRoom as u32;
    };
    let mut answers = Answers { room, used: 0 };
    let result = play_all(list, &mut answers);
    *head = (answers.used as u64).to_be_bytes();
    match result {
        Ok(()) => 0,
        Err(stop) => stop as u32,
    }
}

fn play_all(mut list: &[u8], answers: &mut Answers) -> Result<(), Stop> {
    let mut boards = Boards::new();
    while !list.is_empty() {
        let (entry, rest) = Entry::decode(list)?;
        answers.add(boards.play(entry), || boards.look(entry.side))?;
        list = rest;
    }
    Ok(())
}

fn event_read(event: Event, next: u64) -> [u8; EVENT_READ] {
    let mut answer = Fields::new(0x14);
    answer.event(event);
    answer.put(next.to_be_bytes());
    answer.bytes
}

fn event_removed(event: Event) -> [u8; 1 + EVENT] {
    let mut answer = Fields::new(0x15);
    answer.event(event);
    answer.bytes
}

fn look<const STEP: i32>(board: &Board<STEP>) -> [u8; LOOK] {
    let mut look = Fields::new(0x13);
    for phase in board.shown().as_flattened() {
        look.put(phase.to_be_bytes());
    }
    for gate in board.gates() {
        look.record(gate);
    }
    look.bytes
}

/// An answer in the making.
struct Fields<const LEN: usize> {
    bytes: [u8; LEN],
    used: usize,
}

impl<const LEN: usize> Fields<LEN> {
    fn new(first: u8) -> Self {
        let mut fields = Fields {
            bytes: [0; LEN],
            used: 0,
        };
        fields.put([first]);
        fields
    }

    fn put<const N: usize>(&mut self, field: [u8; N]) {
        self.bytes[self.used..self.used + N].copy_from_slice(&field);
        self.used += N;
    }

    fn event(&mut self, event: Event) {
        self.put([event.gate, event.place]);
        self.put(event.clock.to_be_bytes());
    }

    fn record(&mut self, gate: &Gate) {
        self.registers(&gate.buffered);
        self.registers(&gate.active);
        self.put(gate.buffered.power.to_be_bytes());
        self.put(gate.active.power.to_be_bytes());
        self.put(gate.p.to_be_bytes());
        self.put(gate.v.to_be_bytes());
        self.put([gate.halted.into(), gate.rested.into()]);
        self.put(gate.actual.to_be_bytes());
        self.put([gate.breakpoint as u8]);
        self.put(gate.point.to_be_bytes());
        self.put([gate.auto_update.into(), gate.events, gate.found]);
        self.put(gate.mask.to_be_bytes());
        self.put([gate.positive_armed.into(), gate.negative_armed.into()]);
        self.put([gate.motor as u8, gate.slip_out.into()]);
        self.put(gate.clock.to_be_bytes());
    }

    /// The powers stand apart from the other registers.
    fn registers(&mut self, registers: &Registers) {
        self.put(registers.destination.to_be_bytes());
        self.put(registers.velocity.to_be_bytes());
        self.put(registers.acceleration.to_be_bytes());
        self.put([registers.mode as u8]);
    }
}

#[cfg(test)]
mod tests;
