//! A list of events with a place for each, as docs/EVENTS.md defines it.

use std::collections::VecDeque;

#[cfg(test)]
mod tests;

/// A gate (1 or 2), the place of its event bit, and its clock at the collect.
#[derive(Clone, Copy, Debug, PartialEq, Eq)]
pub struct Event {
    pub gate: u8,
    pub place: u8,
    pub clock: u32,
}

impl Event {
    pub fn repeats(self, other: Event) -> bool {
        (self.gate, self.place) == (other.gate, other.place)
    }
}

pub struct EventList {
    /// The oldest first.
    stored: VecDeque<Event>,
    capacity: usize,
    /// How many were listed so far, modulo 2^64: the place behind the newest one.
    end: u64,
}

impl EventList {
    pub fn new(capacity: usize) -> EventList {
        EventList {
            stored: VecDeque::with_capacity(capacity),
            capacity,
            end: 0,
        }
    }

    pub fn end(&self) -> u64 {
        self.end
    }

    pub fn newest(&self) -> Option<Event> {
        self.stored.back().copied()
    }

    pub fn is_empty(&self) -> bool {
        self.stored.is_empty()
    }

    pub fn is_full(&self) -> bool {
        self.stored.len() == self.capacity
    }

    /// The place of the oldest event, or the end if there is none.
    pub fn oldest_place(&self) -> u64 {
        self.end.wrapping_sub(self.stored.len() as u64)
    }

    /// Lists one more, and says whether there was room for it.
    pub fn push(&mut self, event: Event) -> bool {
        if self.is_full() {
            return false;
        }
        self.stored.push_back(event);
        self.end = self.end.wrapping_add(1);
        true
    }

    /// Takes back what was listed since the end was `end`.
    pub fn take_back(&mut self, end: u64) {
        while self.end != end {
            self.stored.pop_back();
            self.end = self.end.wrapping_sub(1);
        }
    }

    /// Takes out the oldest event.
    pub fn remove(&mut self) -> Option<Event> {
        self.stored.pop_front()
    }

    /// The event at a place and the next place; none at the end. Any other place means the
    /// oldest event.
    pub fn read(&self, place: u64) -> Option<(Event, u64)> {
        if place == self.end {
            return None;
        }
        let oldest = self.oldest_place();
        let behind = place.wrapping_sub(oldest);
        let at = match usize::try_from(behind) {
            Ok(at) if at < self.stored.len() => at,
            _ => 0,
        };
        let next = oldest.wrapping_add(at as u64 + 1);
        self.stored.get(at).map(|event| (*event, next))
    }
}
