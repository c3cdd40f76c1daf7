//! The part of a list of acts that is about event lists: events come about, are collected, read and
//! removed.

use std::ops::Range;

use super::{END, Maker};
use crate::board::{Input, Refusal};
use crate::replay::{Act, Answer, Side};

/// What a collect, a read at a place or a remove came to.
#[derive(Clone, Copy)]
pub enum Came {
    NothingNew,
    AllListed,
    RestListed,
    Repeat,
    RepeatAtFull,
    NoGate,
    NoRoom,
    ReadThere,
    ReadOldest,
    AtEnd,
    NoneToRead,
    Removed,
    NoneToRemove,
}

impl Came {
    pub const NAMES: [&str; 13] = [
        "nothing new",
        "all listed",
        "all but a repeat",
        "only a repeat",
        "only a repeat, at full",
        "no such gate",
        "no room",
        "the event there",
        "the oldest instead",
        "none, at the end",
        "none, list empty",
        "the oldest event",
        "none",
    ];

    pub const GROUPS: [(&str, Range<usize>); 3] = [
        ("collects", 0..7),
        ("reads at a place", 7..11),
        ("removes", 11..13),
    ];
}

impl Maker {
    /// Events come about and are cleared, and what was collected is read and removed.
    pub fn events(&mut self, side: Side) {
        for _ in 0..=self.rng.below(6) {
            match self.rng.below(8) {
                0 | 1 => {
                    let which = self.rng.pick(&[0, 0, 0, 1, 1, 2, 2, 3, 4]);
                    self.happen(side, which);
                }
                2 => self.clear_events(side),
                _ => self.list_act(side),
            }
        }
        if self.rng.one_in(20) {
            let list = self.event_list();
            self.drain(side, list);
        }
    }

    /// The same event, now and then with another, is collected again and again in one list.
    pub fn again(&mut self, side: Side) {
        let gate = self.boards.current(side) as u8 + 1;
        let (list, which) = (self.event_list(), self.rng.below(4));
        for _ in 0..=self.rng.below(5) {
            let other = self.rng.below(3);
            let which = if self.rng.one_in(2) { which } else { other };
            self.happen(side, which);
            if self.rng.one_in(3) {
                let other = self.rng.below(4);
                self.happen(side, other);
            }
            self.collect(side, gate, list);
            if self.rng.one_in(2) {
                self.make_room(side, gate, list);
            }
            if self.rng.one_in(20) {
                self.act(side, Act::Reset);
            } else {
                self.send_word(side, 0x34, 0);
            }
            if !self.rng.one_in(4) {
                self.collect(side, gate, list);
            }
        }
    }

    /// An event of the current gate, if nothing stands in its way.
    fn happen(&mut self, side: Side, which: u64) {
        match which {
            0 => self.send_word(side, 0x62, 0x8000),
            1 => {
                self.send_long(side, 0x16, -1 << 31);
                self.command(side, 0x18);
                self.cycle(side);
            }
            2 => self.trip(side),
            3 => self.hop(side),
            _ => self.ends(side),
        }
    }

    fn trip(&mut self, side: Side) {
        let gate = self.boards.current(side);
        let positive = self.rng.one_in(2);
        for on in [false, true] {
            let input = &mut self.switches[side as usize][gate];
            if positive {
                input.positive = on;
            } else {
                input.negative = on;
            }
            self.cycle(side);
        }
        self.switches[side as usize][gate] = Input::default();
    }

    /// A short move, to its end.
    fn hop(&mut self, side: Side) {
        self.clear_limits(side);
        let target = i64::from(self.gate(side).target());
        let destination = if target < 0 { target + 1 } else { target - 1 };
        self.send_long(side, 0x10, destination);
        self.send_long(side, 0x11, END - 1);
        self.send_long(side, 0x12, END - 1);
        self.command(side, 0x09);
        self.command(side, 0x1a);
        self.cycle(side);
        self.cycle(side);
    }

    fn clear_events(&mut self, side: Side) {
        let keep = match self.rng.below(4) {
            0 => 0,
            1 => self.rng.next() as u16,
            _ => !(1 << self.rng.pick(&[0, 1, 2, 5, 6, 7])),
        };
        self.send_word(side, 0x34, keep);
    }

    fn event_list(&mut self) -> usize {
        self.rng.pick(&[0, 1, 1, 1, 2, 2, 2, 3, 3, 3, 3, 3])
    }

    pub fn list_act(&mut self, side: Side) {
        let list = self.event_list();
        if self.rng.one_in(self.mix.removes) {
            self.remove(side, list);
            return;
        }
        match self.rng.below(6) {
            0..=2 => {
                let gate = self.any_gate();
                self.collect(side, gate, list);
                if self.rng.one_in(3) {
                    self.make_room(side, gate, list);
                }
            }
            3 => self.read_on(side, list),
            _ => {
                let place = self.place(list);
                self.read_at(side, list, place);
            }
        }
    }

    fn any_gate(&mut self) -> u8 {
        match self.rng.below(24) {
            0 => self.rng.pick(&[0, 3, 255]),
            1 => self.rng.next() as u8,
            n => 1 + (n % 2) as u8,
        }
    }

    fn collect(&mut self, side: Side, gate: u8, list: usize) {
        let new = match gate {
            1 | 2 => self.boards.gates(side)[usize::from(gate) - 1].new_events(),
            _ => 0,
        };
        let full = self.boards.list(list).is_full();
        let end = self.boards.list(list).end();
        let answer = self.answer(side, Act::Collect { gate, list });
        let listed = self.boards.list(list).end().wrapping_sub(end);
        self.list.listed[list] += listed;
        self.came(match answer {
            Answer::Refused(Refusal::NoRoom) => Came::NoRoom,
            Answer::Refused(_) => Came::NoGate,
            _ if new == 0 => Came::NothingNew,
            _ if listed == u64::from(new.count_ones()) => Came::AllListed,
            _ if listed > 0 => Came::RestListed,
            _ if full => Came::RepeatAtFull,
            _ => Came::Repeat,
        });
    }

    /// Removes from a list that is full, and collects once more.
    fn make_room(&mut self, side: Side, gate: u8, list: usize) {
        if self.boards.list(list).is_full() {
            self.remove(side, list);
            while !self.boards.list(list).is_empty() && self.rng.one_in(2) {
                self.remove(side, list);
            }
            self.collect(side, gate, list);
        }
    }

    fn came(&mut self, came: Came) {
        self.list.came[came as usize] += 1;
    }

    /// One of the two readers reads some of what it has still to read.
    fn read_on(&mut self, side: Side, list: usize) {
        let reader = self.rng.below(2) as usize;
        for _ in 0..=self.rng.sized(3) {
            let place = self.readers[list][reader];
            self.readers[list][reader] = self.read_at(side, list, place);
        }
    }

    /// The place to read next from.
    fn read_at(&mut self, side: Side, list: usize, place: u64) -> u64 {
        let end = self.boards.list(list).end();
        match self.answer(side, Act::ReadAt { list, place }) {
            Answer::EventRead { next, .. } => {
                let there = next == place.wrapping_add(1);
                self.came(if there {
                    Came::ReadThere
                } else {
                    Came::ReadOldest
                });
                next
            }
            _ => {
                let at_end = place == end;
                self.came(if at_end {
                    Came::AtEnd
                } else {
                    Came::NoneToRead
                });
                place
            }
        }
    }

    /// A place that something has or had in a list, or one like it, or any number.
    fn place(&mut self, list: usize) -> u64 {
        let list = self.boards.list(list);
        let (oldest, end) = (list.oldest_place(), list.end());
        match self.rng.below(9) {
            0 => self.rng.below(12),
            1 => end,
            2 => end.wrapping_add(1 + self.rng.sized(4) as u64),
            3 | 4 => oldest.wrapping_add(self.rng.below(8)),
            5 => oldest.wrapping_sub(1 + self.rng.sized(4) as u64),
            6 => end.wrapping_sub(self.rng.below(3)) ^ 1 << self.rng.below(64),
            7 => u64::MAX - self.rng.below(3),
            _ => self.rng.next(),
        }
    }

    fn remove(&mut self, side: Side, list: usize) {
        let came = match self.answer(side, Act::Remove { list }) {
            Answer::EventRemoved(_) => Came::Removed,
            _ => Came::NoneToRemove,
        };
        self.came(came);
    }

    /// Removes all, and once more.
    fn drain(&mut self, side: Side, list: usize) {
        while !self.boards.list(list).is_empty() {
            self.remove(side, list);
        }
        self.remove(side, list);
    }
}
