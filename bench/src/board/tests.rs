use super::*;

type Dac = Board<1>;

fn board() -> Dac {
    Board::new()
}

fn send(board: &mut Dac, code: u8, words: &[u16]) -> Result<(), Refusal> {
    board.command(code)?;
    words.iter().try_for_each(|word| board.write(*word))
}

fn send_long(board: &mut Dac, code: u8, value: i32) -> Result<(), Refusal> {
    send(board, code, &[(value >> 16) as u16, value as u16])
}

fn ask(board: &mut Dac, code: u8) -> u32 {
    board.command(code).unwrap();
    let high = board.read().unwrap();
    u32::from(high) << 16 | u32::from(board.read().unwrap())
}

fn status(board: &mut Dac) -> u16 {
    board.command(0x31).unwrap();
    board.read().unwrap()
}

fn load(board: &mut Dac, destination: i32, velocity: i32, acceleration: i32) {
    send_long(board, 0x10, destination).unwrap();
    send_long(board, 0x11, velocity).unwrap();
    send_long(board, 0x12, acceleration).unwrap();
}

fn cycle(board: &mut Dac) {
    board.cycle([Input::default(); 2]);
}

fn cycle_with(board: &mut Dac, one: Input) {
    board.cycle([one, Input::default()]);
}

fn positive() -> Input {
    Input {
        positive: true,
        ..Input::default()
    }
}

fn negative() -> Input {
    Input {
        negative: true,
        ..Input::default()
    }
}

fn home() -> Input {
    Input {
        home: true,
        ..Input::default()
    }
}

#[test]
fn the_worked_move() {
    let mut board = board();
    load(&mut board, 1, 40_000, 16_384);
    board.command(0x1a).unwrap();
    let rows = [
        (16_384, 16_384, 0),
        (32_768, 49_152, 0),
        (16_384, 65_536, 0),
        (0, 65_536, event::MOTION_COMPLETE),
    ];
    for (v, p, events) in rows {
        cycle(&mut board);
        let gate = &board.gates()[0];
        assert_eq!((gate.v, gate.p, gate.events), (v, p, events));
    }
    assert_eq!(ask(&mut board, 0x1d), 1);
}

/// The sum as it is written down.
fn reach(s: u64, a: u64) -> u64 {
    (0..).map_while(|n| s.checked_sub(n * a)).sum()
}

#[test]
fn speeds_are_those_of_the_definition() {
    for a in 1..9 {
        for speed in 0..20 {
            for limit in 0..24 {
                for distance in 1..130 {
                    let fits = |s: &u32| reach((*s).into(), a.into()) <= distance;
                    let s = (0..=limit.min(speed + a)).rev().find(fits).unwrap();
                    let expected = s.max(speed.saturating_sub(a));
                    let found = approach_speed(speed, limit, a, distance);
                    assert_eq!(found, expected, "{speed} {limit} {a} {distance}");
                }
            }
        }
    }
}

/// The largest speed by halving, in 128 bits.
fn speed_by_halving(speed: u32, limit: u32, a: u32, distance: u64) -> u32 {
    let fits = |s: u32| {
        let (s, a) = (u128::from(s), u128::from(a));
        let n = s.div_ceil(a);
        (n * (2 * s + a)).saturating_sub(a * n * n) <= 2 * u128::from(distance)
    };
    let (mut low, mut high) = (0, limit.min(speed + a));
    while low < high {
        let middle = high - (high - low) / 2;
        if fits(middle) {
            low = middle;
        } else {
            high = middle - 1;
        }
    }
    low.max(speed.saturating_sub(a))
}

#[test]
fn speeds_hold_for_large_values() {
    const VALUES: [u32; 12] = [
        0,
        1,
        2,
        3,
        1_000,
        65_536,
        1_000_003,
        1 << 24,
        1 << 29,
        (1 << 30) - 2,
        (1 << 30) - 1,
        1 << 30,
    ];
    for speed in VALUES.map(|speed| speed.min(FASTEST)) {
        for limit in VALUES.map(|limit| limit.min(FASTEST)) {
            for a in VALUES.map(|a| a.max(1)) {
                for bits in 0..48 {
                    for distance in [(1 << bits) - 1, 1 << bits, (1 << bits) + 1] {
                        let distance: u64 = distance;
                        if !(1..1 << 47).contains(&distance) {
                            continue;
                        }
                        let expected = speed_by_halving(speed, limit, a, distance);
                        let found = approach_speed(speed, limit, a, distance);
                        assert_eq!(found, expected, "{speed} {limit} {a} {distance}");
                    }
                }
            }
        }
    }
}

#[test]
fn a_move_is_never_too_fast_to_stop() {
    let mut board = board();
    load(&mut board, 123_456_789, 987_654_321, 33);
    board.command(0x1a).unwrap();
    for _ in 0..2_000_000 {
        cycle(&mut board);
    }
    let gate = &board.gates()[0];
    assert_eq!((gate.target(), gate.v), (123_456_789, 0));
    assert_eq!(gate.events, event::MOTION_COMPLETE);
}

#[test]
fn velocity_mode_goes_either_way() {
    let mut board = board();
    load(&mut board, 0, 25, 10);
    board.command(0x0a).unwrap();
    board.command(0x1a).unwrap();
    for v in [10, 20, 25, 25] {
        cycle(&mut board);
        assert_eq!(board.gates()[0].v, v);
    }
    send_long(&mut board, 0x12, -20).unwrap();
    board.command(0x1a).unwrap();
    for v in [5, -15, -25, -25] {
        cycle(&mut board);
        assert_eq!(board.gates()[0].v, v);
    }
    assert_eq!(ask(&mut board, 0x1e), -25_i32 as u32);
}

#[test]
fn positions_go_round() {
    let mut board = board();
    load(&mut board, 0, 70_000, 70_000);
    send_long(&mut board, 0x4d, END - 1).unwrap();
    board.command(0x0a).unwrap();
    board.command(0x1a).unwrap();
    let count = |count| Input {
        count,
        ..Input::default()
    };
    cycle_with(&mut board, count(1));
    let gate = board.gates()[0];
    assert_eq!(gate.events, event::WRAP_AROUND);
    assert_eq!(gate.p, -(1 << 46) + 70_000 - 65_536);
    assert_eq!(gate.target(), -END);
    assert_eq!(gate.actual, -END);
    cycle_with(&mut board, count(-32_768));
    assert_eq!(board.gates()[0].actual, END - 32_768);
}

#[test]
fn limits_trip_once_and_hold() {
    let mut board = board();
    load(&mut board, 1_000, 65_536, 65_536);
    board.command(0x1a).unwrap();
    cycle(&mut board);
    let both = Input {
        negative: true,
        ..positive()
    };
    cycle_with(&mut board, both);
    let gate = board.gates()[0];
    assert_eq!(gate.events, event::POSITIVE_LIMIT | event::MOTION_COMPLETE);
    assert_eq!((gate.v, gate.halted, gate.p), (0, true, 65_536));
    assert_eq!((gate.positive_armed, gate.negative_armed), (false, true));

    // A latch does not end a halt while the bit stands.
    board.command(0x1a).unwrap();
    assert!(board.gates()[0].halted);
    send(&mut board, 0x34, &[!u16::from(event::LIMITS)]).unwrap();
    // What was held back trips now; the other detector is not armed.
    cycle_with(&mut board, both);
    let gate = board.gates()[0];
    assert_eq!(gate.events & event::LIMITS, event::NEGATIVE_LIMIT);
    cycle_with(&mut board, negative());
    assert!(board.gates()[0].positive_armed);
    assert!(!board.gates()[0].negative_armed);
    send(&mut board, 0x34, &[0]).unwrap();
    board.command(0x1a).unwrap();
    assert!(!board.gates()[0].halted);
    cycle_with(&mut board, negative());
    assert_eq!(board.gates()[0].v, 65_536);
    assert_eq!(status(&mut board), 1 << 10);
}

#[test]
fn breakpoints_latch_and_go_off() {
    let mut board = board();
    load(&mut board, 5, 65_536, 65_536);
    send_long(&mut board, 0x16, 1).unwrap();
    board.command(0x17).unwrap();
    // The clock counts first, so the point 1 holds in the first cycle.
    cycle(&mut board);
    let gate = board.gates()[0];
    assert_eq!(gate.events, event::BREAKPOINT);
    assert_eq!((gate.breakpoint, gate.v), (Breakpoint::Off, 65_536));

    // The target position before the move is 1, and is 2 in the cycle after it.
    send(&mut board, 0x34, &[0]).unwrap();
    send_long(&mut board, 0x16, 2).unwrap();
    board.command(0x46).unwrap();
    board.command(0x5d).unwrap();
    board.command(0x18).unwrap();
    cycle(&mut board);
    assert_eq!(board.gates()[0].events, 0);
    cycle(&mut board);
    assert_eq!(board.gates()[0].events, event::BREAKPOINT);
    assert_eq!(board.gates()[0].v, 65_536, "auto update is off");
}

#[test]
fn each_breakpoint_has_its_condition() {
    let met = |code: u8, point: i32, input: Input| {
        let mut board = board();
        send_long(&mut board, 0x16, point).unwrap();
        board.command(code).unwrap();
        cycle_with(&mut board, input);
        board.gates()[0].events == event::BREAKPOINT
    };
    let still = Input::default();
    let back = Input {
        count: -3,
        ..Input::default()
    };
    assert!(met(0x17, 1, still) && !met(0x17, 0, still) && !met(0x17, 2, still));
    assert!(met(0x18, 0, still) && met(0x18, -1, still) && !met(0x18, 1, still));
    assert!(met(0x19, 0, still) && met(0x19, 1, still) && !met(0x19, -1, still));
    assert!(met(0x1b, -3, back) && !met(0x1b, -2, back));
    assert!(met(0x1c, -3, back) && !met(0x1c, -4, back));
    assert!(met(0x5e, 0, home()) && !met(0x5e, 0, still));
    assert!(!met(0x6d, 0, home()));

    let mut board = board();
    load(&mut board, 1, 65_536, 65_536);
    board.command(0x1a).unwrap();
    board.command(0x35).unwrap();
    for events in [
        0,
        event::MOTION_COMPLETE,
        event::MOTION_COMPLETE | event::BREAKPOINT,
    ] {
        cycle(&mut board);
        assert_eq!(board.gates()[0].events, events);
    }
}

#[test]
fn phases_of_the_table() {
    assert_eq!(phases(-1, 32_767, Motor::TwoPhase), [-804, 32_757]);
    assert_eq!(phases(64, 16_384, Motor::TwoPhase), [16_384, 0]);
    assert_eq!(phases(129, 100, Motor::TwoPhase), [-2, -99]);
    assert_eq!((WAVE[64], WAVE[192]), (32_767, -32_767));
    assert_eq!(phases(0, 32_767, Motor::ThreePhase), [0, QUARTER[128 - 85]]);
}

#[test]
fn the_quarter_wave_is_a_sine() {
    for (k, entry) in QUARTER.iter().enumerate() {
        let angle = k as f64 * std::f64::consts::FRAC_PI_2 / 64.0;
        assert_eq!(f64::from(*entry), (32_767.0 * angle.sin()).round());
    }
    let squares = |k: usize| QUARTER[k].pow(2) - 32_767 * 32_767 + QUARTER[64 - k].pow(2);
    assert!((0..=64).all(|k| squares(k).abs() <= 46_340));
}

#[test]
fn cuts_of_the_table() {
    assert_eq!(cut(1, 40_000), 32_767);
    assert_eq!(cut(128, 127), 0);
    assert_eq!(cut(128, -127), 0);
    assert_eq!(cut(128, -32_767), -32_640);
}

#[test]
fn a_cycle_shows_what_the_stage_keeps() {
    let mut board = Board::<128>::new();
    board.command(0x62).unwrap();
    board.write(32_767).unwrap();
    assert_eq!(*board.shown(), [[0, 0], [0, 0]]);
    board.cycle([Input::default(); 2]);
    assert_eq!(*board.shown(), [[0, 32_640], [0, 0]]);
    board.reset();
    assert_eq!(*board.shown(), [[0, 0], [0, 0]]);
}

#[test]
fn a_packet_byte_by_byte() {
    let mut board = board();
    assert_eq!(board.command(0x02), Ok(()));
    assert_eq!(board.command(0x10), Err(Refusal::PacketOpen));
    assert_eq!(board.read(), Ok(1 << 12));
    assert_eq!(board.command(0x10), Ok(()));
    assert_eq!(board.write(0xffff), Ok(()));
    assert_eq!(board.write(0xfffe), Ok(()));
    assert_eq!(board.gates()[1].buffered.destination, -2);
    assert_eq!(board.command(0x4a), Ok(()));
    assert_eq!(board.read(), Ok(0xffff));
    assert_eq!(board.read(), Ok(0xfffe));
    assert_eq!(board.read(), Err(Refusal::NotGiving));
}

#[test]
fn commands_take_and_give_what_the_tables_say() {
    let none = [
        0x09, 0x0a, 0x46, 0x1a, 0x5c, 0x5d, 0x17, 0x18, 0x19, 0x1b, 0x1c, 0x35, 0x5e, 0x6d, 0x74,
        0x73,
    ];
    let take = [0x77, 0x62, 0x34, 0x2f, 0x5b, 0x10, 0x11, 0x12, 0x16, 0x4d];
    let give = [0x01, 0x02, 0x31, 0x4a, 0x4b, 0x4c, 0x1d, 0x1e, 0x37, 0x3e];
    for code in 0..=u8::MAX {
        let mut board = board();
        let answer = board.command(code);
        let words = (0..3).filter(|_| board.write(1).is_ok()).count();
        let given = (0..3).filter(|_| board.read().is_ok()).count();
        let long = |codes: &[u8], single: usize| match codes.iter().position(|c| *c == code) {
            Some(at) => 1 + usize::from(at >= single),
            None => 0,
        };
        assert_eq!(words, long(&take, 5), "{code:02x}");
        assert_eq!(given, long(&give, 3), "{code:02x}");
        let expected = if code == 0x08 {
            Err(Refusal::NoCall)
        } else if words + given > 0 || none.contains(&code) {
            Ok(())
        } else {
            Err(Refusal::Unknown)
        };
        assert_eq!(answer, expected, "{code:02x}");
    }
}

#[test]
fn every_act_in_every_state_of_the_port() {
    let mut board = board();
    assert_eq!(board.write(0), Err(Refusal::NotTaking));
    assert_eq!(board.read(), Err(Refusal::NotGiving));
    assert_eq!(board.command(0x00), Err(Refusal::Unknown));
    board.command(0x10).unwrap();
    assert!(board.takes_words());
    assert_eq!(board.command(0x00), Err(Refusal::PacketOpen));
    assert_eq!(board.command(0x08), Err(Refusal::PacketOpen));
    assert_eq!(board.read(), Err(Refusal::NotGiving));
    cycle(&mut board);
    assert!(board.takes_words());
    board.reset();
    assert_eq!(board.write(0), Err(Refusal::NotTaking));
    board.command(0x3e).unwrap();
    assert!(board.gives_words());
    assert_eq!(board.write(0), Err(Refusal::NotTaking));
    cycle(&mut board);
    // The answer was fixed before the cycle.
    assert_eq!((board.read(), board.read()), (Ok(0), Ok(0)));
    assert_eq!(ask(&mut board, 0x3e), 1);
}

#[test]
fn values_out_of_range_set_the_error_bit_alone() {
    let refused = |code: u8, words: &[u16]| {
        let mut board = board();
        let before = board.gates()[0];
        assert_eq!(send(&mut board, code, words), Err(Refusal::OutOfRange));
        let expected = Gate {
            events: event::COMMAND_ERROR,
            ..before
        };
        assert_eq!(board.gates()[0], expected);
        assert_eq!(board.write(0), Err(Refusal::NotTaking));
    };
    for code in [0x10, 0x12, 0x4d] {
        refused(code, &[0x4000, 0x0000]);
        refused(code, &[0xbfff, 0xffff]);
        let mut board = board();
        assert_eq!(send(&mut board, code, &[0x3fff, 0xffff]), Ok(()));
        assert_eq!(send(&mut board, code, &[0xc000, 0x0000]), Ok(()));
    }
    refused(0x12, &[0, 0]);
    refused(0x11, &[0x4000, 0]);
    refused(0x11, &[0xffff, 0xffff]);
    refused(0x77, &[0x8000]);
    refused(0x62, &[0x8000]);

    let mut board = board();
    assert_eq!(send(&mut board, 0x5b, &[4]), Err(Refusal::OutOfRange));
    assert_eq!(board.gates().map(|gate| gate.events), [0, 0]);
    assert_eq!(board.write(0), Err(Refusal::NotTaking));
}

#[test]
fn multi_update_latches_the_gates_of_its_bits() {
    for gates in 0..4 {
        let mut board = board();
        for select in [0x01, 0x02] {
            board.command(select).unwrap();
            board.read().unwrap();
            send_long(&mut board, 0x10, 7).unwrap();
        }
        send(&mut board, 0x5b, &[gates]).unwrap();
        let latched = board.gates().map(|gate| gate.active.destination == 7);
        assert_eq!(latched, [gates & 1 != 0, gates & 2 != 0]);
    }
}

#[test]
fn setting_the_position_halts() {
    let mut board = board();
    load(&mut board, 100, 1_000, 1_000);
    board.command(0x1a).unwrap();
    cycle(&mut board);
    send_long(&mut board, 0x4d, -5).unwrap();
    let gate = board.gates()[0];
    assert_eq!((gate.p, gate.actual, gate.v), (-5 << 16, -5, 0));
    assert!(gate.halted);
    assert_eq!(status(&mut board), 0);
    cycle(&mut board);
    assert_eq!(board.gates()[0].events, event::MOTION_COMPLETE);
    assert_eq!(board.gates()[0].p, -5 << 16);
}

#[test]
fn slips() {
    let mut board = board();
    assert_eq!(board.take(), Err(Refusal::NoCall));
    board.command(0x02).unwrap();
    board.read().unwrap();
    send(&mut board, 0x2f, &[0x80]).unwrap();
    assert!(send(&mut board, 0x62, &[0xffff]).is_err());
    assert_eq!(board.take(), Ok(1));
    assert_eq!(board.take(), Err(Refusal::NoCall));
    // The gate goes on calling.
    board.command(0x01).unwrap();
    board.read().unwrap();
    board.command(0x08).unwrap();
    assert_eq!(board.read(), Ok(1 << 12 | 0x80));
    assert_eq!(board.current(), 1);
    assert_eq!(board.close(0, 0), Err(Refusal::NoSlip));
    board.reset();
    assert_eq!(board.current(), 0);
    assert!(board.gates()[1].slip_out);
    assert_eq!(board.close(1, 0), Ok(()));
    assert_eq!(board.close(1, 0), Err(Refusal::NoSlip));
    assert_eq!(*board.gates(), [Gate::NEW; 2]);
}

/// A record as docs/EVENTS.md writes it.
fn listed(gate: u8, place: u8, clock: u32) -> Event {
    Event { gate, place, clock }
}

/// The place of the oldest event, and all of them.
fn stored(list: &EventList) -> (u64, Vec<Event>) {
    let mut place = list.oldest_place();
    let events = std::iter::from_fn(|| {
        let (event, next) = list.read(place)?;
        place = next;
        Some(event)
    });
    (list.oldest_place(), events.collect())
}

fn break_at(board: &mut Dac, clock: i32) {
    send_long(board, 0x16, clock).unwrap();
    board.command(0x17).unwrap();
    while board.gates()[0].events & event::BREAKPOINT == 0 {
        cycle(board);
    }
}

/// Motion complete and a breakpoint at gate 1, a command error at gate 2, at the clock 160.
fn the_example() -> Dac {
    let mut board = board();
    board.command(0x02).unwrap();
    board.read().unwrap();
    send(&mut board, 0x62, &[0x8000]).unwrap_err();
    board.command(0x01).unwrap();
    board.read().unwrap();
    load(&mut board, 1, 65_536, 65_536);
    board.command(0x1a).unwrap();
    break_at(&mut board, 160);
    assert_eq!(
        board.gates().map(|gate| (gate.events, gate.clock)),
        [0x05, 0x80].map(|events| (events, 160))
    );
    board
}

#[test]
fn the_example_of_event_lists() {
    let mut board = the_example();
    let mut list = EventList::new(3);
    let mut records = vec![listed(1, 0, 160), listed(1, 2, 160)];
    assert_eq!(board.collect(1, &mut list), Ok(()));
    assert_eq!(stored(&list), (0, records.clone()));
    assert_eq!(board.collect(1, &mut list), Ok(()));
    assert_eq!(stored(&list), (0, records.clone()));
    assert_eq!(list.read(0), Some((records[0], 1)));
    assert_eq!(list.read(1), Some((records[1], 2)));
    assert_eq!(list.read(2), None);
    records.push(listed(2, 7, 160));
    assert_eq!(board.collect(2, &mut list), Ok(()));
    assert_eq!(stored(&list), (0, records.clone()));
    send(&mut board, 0x34, &[0]).unwrap();
    assert_eq!(board.collect(1, &mut list), Ok(()));
    assert_eq!(stored(&list), (0, records.clone()));

    break_at(&mut board, 320);
    let before = *board.gates();
    assert_eq!(board.collect(1, &mut list), Err(Refusal::NoRoom));
    assert_eq!((stored(&list), list.end()), ((0, records.clone()), 3));
    assert_eq!(*board.gates(), before);
    assert_eq!(list.remove(), Some(records.remove(0)));
    assert_eq!(stored(&list), (1, records.clone()));
    records.push(listed(1, 2, 320));
    assert_eq!(board.collect(1, &mut list), Ok(()));
    assert_eq!((stored(&list), list.end()), ((1, records.clone()), 4));
    assert_eq!(list.read(0), Some((records[0], 2)));
    assert_eq!(list.read(2), Some((records[1], 3)));

    send(&mut board, 0x34, &[0]).unwrap();
    assert_eq!(board.collect(1, &mut list), Ok(()));
    break_at(&mut board, 330);
    assert_eq!(board.collect(1, &mut list), Ok(()));
    assert_eq!(stored(&list), (1, records));
    assert_eq!(board.gates()[0].found, event::BREAKPOINT);
}

#[test]
fn a_collect_lists_all_or_nothing() {
    let mut board = board();
    board.gates[0].events = event::MOTION_COMPLETE | event::LIMITS | event::COMMAND_ERROR;
    let mut list = EventList::new(3);
    assert_eq!(board.collect(1, &mut list), Err(Refusal::NoRoom));
    assert_eq!((stored(&list), list.end()), ((0, vec![]), 0));
    assert_eq!(board.gates()[0].found, 0);

    // The lowest repeats the newest, the others fit.
    let mut list = EventList::new(4);
    assert!(list.push(listed(1, 0, 77)));
    assert_eq!(board.collect(1, &mut list), Ok(()));
    let places = stored(&list).1.iter().map(|event| event.place).collect();
    assert_eq!((places, list.end()), (vec![0, 5, 6, 7], 4));

    // The other gate's event is not a repeat, an older one does not count either.
    board.gates[1].events = event::COMMAND_ERROR;
    assert_eq!(board.collect(2, &mut list), Err(Refusal::NoRoom));
    list.remove();
    assert_eq!(board.collect(2, &mut list), Ok(()));
    assert_eq!(list.newest(), Some(listed(2, 7, 0)));
}

#[test]
fn a_repeat_needs_no_room() {
    let mut board = board();
    board.gates[1].events = event::WRAP_AROUND;
    let mut list = EventList::new(1);
    assert_eq!(board.collect(2, &mut list), Ok(()));
    board.gates[1].found = 0;
    assert_eq!(board.collect(2, &mut list), Ok(()));
    assert_eq!(board.gates()[1].found, event::WRAP_AROUND);
    // After all are removed it is listed again.
    list.remove();
    board.gates[1].found = 0;
    assert_eq!(board.collect(2, &mut list), Ok(()));
    assert_eq!((list.oldest_place(), list.end()), (1, 2));
}

#[test]
fn a_collect_changes_nothing_but_what_was_found() {
    let mut board = the_example();
    board.command(0x10).unwrap();
    board.write(0xffff).unwrap();
    let (gates, shown) = (*board.gates(), *board.shown());
    let mut list = EventList::new(7);
    for gate in [0, 3, 255] {
        assert_eq!(board.collect(gate, &mut list), Err(Refusal::OutOfRange));
    }
    assert!(list.is_empty());
    assert_eq!(*board.gates(), gates);
    assert_eq!(board.collect(2, &mut list), Ok(()));
    let found = Gate {
        found: event::COMMAND_ERROR,
        ..gates[1]
    };
    assert_eq!(*board.gates(), [gates[0], found]);
    assert_eq!((board.current(), *board.shown()), (0, shown));
    assert_eq!(board.write(0xfffe), Ok(()));
    assert_eq!(board.gates()[0].buffered.destination, -2);
    board.reset();
    assert_eq!(*board.gates(), [Gate::NEW; 2]);
    assert_eq!(list.newest(), Some(listed(2, 7, 160)));
}
