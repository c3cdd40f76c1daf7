use super::*;

fn event(clock: u32) -> Event {
    Event {
        gate: 1,
        place: 0,
        clock,
    }
}

/// A list for so many events, into which those of these clocks were put.
fn list(capacity: usize, clocks: std::ops::Range<u32>) -> EventList {
    let mut list = EventList::new(capacity);
    for clock in clocks {
        assert!(list.push(event(clock)));
    }
    list
}

#[test]
fn a_list_without_room_takes_nothing() {
    let mut list = EventList::new(0);
    assert!(list.is_full() && list.is_empty());
    assert!(!list.push(event(1)));
    assert_eq!((list.end(), list.newest(), list.remove()), (0, None, None));
    assert_eq!([0, 1, u64::MAX].map(|place| list.read(place)), [None; 3]);
}

#[test]
fn events_keep_their_places() {
    let mut list = list(3, 0..3);
    assert!(!list.push(event(3)));
    assert_eq!(list.end(), 3);
    for n in 3..100 {
        assert_eq!(list.remove(), Some(event(n - 3)));
        assert!(list.push(event(n)));
        let n = u64::from(n);
        assert_eq!((list.oldest_place(), list.end()), (n - 2, n + 1));
        for place in n - 2..=n {
            assert_eq!(list.read(place), Some((event(place as u32), place + 1)));
        }
        assert_eq!(list.read(n + 1), None);
    }
}

#[test]
fn any_other_place_means_the_oldest() {
    let mut list = list(7, 0..6);
    list.remove();
    list.remove();
    let oldest = Some((event(2), 3));
    for place in [0, 1, 7, 8, 1 << 8 | 3, 1 << 32 | 3, 1 << 63, u64::MAX] {
        assert_eq!(list.read(place), oldest, "{place}");
    }
    while list.remove().is_some() {}
    assert_eq!((list.oldest_place(), list.end()), (6, 6));
    assert_eq!([0, 5, 6, 7].map(|place| list.read(place)), [None; 4]);
}

#[test]
fn places_go_round() {
    let mut list = EventList::new(2);
    list.end = u64::MAX;
    assert!(list.push(event(1)) && list.push(event(2)));
    assert_eq!((list.oldest_place(), list.end()), (u64::MAX, 1));
    assert_eq!(list.read(u64::MAX), Some((event(1), 0)));
    assert_eq!(list.read(0), Some((event(2), 1)));
    assert_eq!(list.read(1), None);
    assert_eq!(list.read(2), Some((event(1), 0)));
}

#[test]
fn what_was_listed_is_taken_back() {
    let mut list = list(3, 0..3);
    list.remove();
    list.take_back(2);
    assert_eq!((list.oldest_place(), list.end()), (1, 2));
    assert_eq!(list.newest(), Some(event(1)));
}
