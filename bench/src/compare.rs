//! Plays the same lists to both boards and compares what they answer.

use std::collections::BTreeMap;
use std::process::ExitCode;

use crate::foreign::{self, Caller};
use crate::lists::{self, Came, List, Rng, Timed};
use crate::replay::{Act, CAPACITIES, Entry, HEAD, LOOK, PAIRS, RECORD, replay};
use crate::words;

const ACTS_A_LIST: u64 = 2_000;
/// One in so many lists is so many times as long, so that an event list goes round and round.
const LONG: (u64, u64) = (64, 25);
/// How many acts before a difference are shown.
const BEFORE: usize = 12;
/// What `out` and the bytes around both buffers hold before a call: no entry and no answer, or
/// an act and an acceptance, as which bytes read from beyond an end would pass.
const GUARDS: [u8; 2] = [0xa5, 0x02];

pub fn compare(acts: u64, seed: u64) -> ExitCode {
    println!("plain board against {}, seed {seed}", foreign::NAME);
    let mut bench = Bench::default();
    match bench
        .whole_lists(acts, seed)
        .and_then(|()| bench.timed_lists())
        .and_then(|()| bench.damaged_lists(seed))
    {
        Ok(()) => {
            bench.tally.print();
            println!("no difference");
            ExitCode::SUCCESS
        }
        Err(difference) => {
            println!("{difference}");
            ExitCode::FAILURE
        }
    }
}

#[derive(Default)]
struct Bench {
    caller: Caller,
    out: Vec<u8>,
    tally: Tally,
}

impl Bench {
    fn whole_lists(&mut self, acts: u64, seed: u64) -> Result<(), String> {
        let mut index = 0;
        while self.tally.played() < acts {
            let list = lists::edges(seed, index, acts_of(index));
            let guard = GUARDS[index as usize % GUARDS.len()];
            let code = self
                .play(&list.bytes, list.room, guard)
                .map_err(|difference| format!("seed {seed}, list {index}: {difference}"))?;
            assert_eq!(code, 0, "a list that was made whole is played to its end");
            self.tally.count(&list, &self.out[HEAD..]);
            index += 1;
        }
        self.tally.lists = index;
        Ok(())
    }

    /// Plays a list to both with the same room for the answers.
    fn play(&mut self, list: &[u8], room: usize, guard: u8) -> Result<u32, String> {
        self.out.clear();
        self.out.resize(room, guard);
        let code = replay(list, &mut self.out);
        let (other_code, other_out) = self.caller.call(list, room, guard)?;
        let plain = Outcome::new(code, &self.out);
        let other = Outcome::new(other_code, other_out);
        if plain == other {
            Ok(code)
        } else {
            Err(difference(list, &plain, &other))
        }
    }

    /// What is timed has to be the same too.
    fn timed_lists(&mut self) -> Result<(), String> {
        for Timed { name, list } in lists::timed() {
            self.play(&list.bytes, list.room, GUARDS[0])
                .map_err(|difference| format!("list to time, {name}: {difference}"))?;
        }
        Ok(())
    }

    fn damaged_lists(&mut self, seed: u64) -> Result<(), String> {
        for damaged in damaged(seed) {
            for guard in GUARDS {
                let code = self
                    .play(&damaged.list, damaged.room, guard)
                    .map_err(|difference| format!("{}: {difference}", damaged.name))?;
                self.tally.stops[code as usize] += 1;
            }
        }
        Ok(())
    }
}

fn acts_of(index: u64) -> u64 {
    let (one_in, times) = LONG;
    if index % one_in == one_in - 1 {
        ACTS_A_LIST * times
    } else {
        ACTS_A_LIST
    }
}

/// What a call says: its code, the length of the answers, and the answers. What `out` holds
/// beyond them is nobody's answer.
#[derive(PartialEq, Eq)]
struct Outcome<'a> {
    code: u32,
    len: Option<u64>,
    answers: &'a [u8],
}

impl Outcome<'_> {
    fn new(code: u32, out: &[u8]) -> Outcome<'_> {
        match out.split_first_chunk::<HEAD>() {
            Some((head, rest)) => {
                let len = u64::from_be_bytes(*head);
                let here = rest.len().min(usize::try_from(len).unwrap_or(usize::MAX));
                Outcome {
                    code,
                    len: Some(len),
                    answers: &rest[..here],
                }
            }
            None => Outcome {
                code,
                len: None,
                answers: &[],
            },
        }
    }
}

fn difference(list: &[u8], plain: &Outcome, other: &Outcome) -> String {
    let mut lines = vec![
        "a difference".to_string(),
        format!(
            "plain returned {}, with {:?} bytes of answers",
            plain.code, plain.len
        ),
        format!(
            "{} returned {}, with {:?} bytes of answers",
            foreign::NAME,
            other.code,
            other.len
        ),
    ];
    let (mut rest, mut at, mut act) = (list, 0, 0);
    let mut before = Vec::new();
    while let Ok((entry, after)) = Entry::decode(rest) {
        let (here, there) = (next(plain.answers, at), next(other.answers, at));
        if here.is_empty() && there.is_empty() {
            break;
        }
        let look = entry.act == Act::Look;
        if !look {
            act += 1;
            before.push(format!("  {act}: {}", words::entry(entry)));
        }
        if here != there {
            let what = if look { "look after" } else { "answer of" };
            lines.push(format!("the {what} act {act} differs; the last acts:"));
            lines.extend_from_slice(last(&before));
            lines.extend(fields(here, there));
            return lines.join("\n");
        }
        at += here.len();
        rest = after;
    }
    lines.push(format!("the answers of {act} acts are the same; the last:"));
    lines.extend_from_slice(last(&before));
    lines.push(format!(
        "  then the bytes {:02x?}",
        &rest[..rest.len().min(8)]
    ));
    lines.join("\n")
}

fn last(acts: &[String]) -> &[String] {
    &acts[acts.len().saturating_sub(BEFORE)..]
}

/// The answer that begins at a place.
fn next(answers: &[u8], at: usize) -> &[u8] {
    let rest = answers.get(at..).unwrap_or(&[]);
    match rest.first() {
        Some(&first) => &rest[..words::answer_len(first).min(rest.len())],
        None => rest,
    }
}

fn fields(plain: &[u8], other: &[u8]) -> Vec<String> {
    let (plain, other) = (words::answer(plain), words::answer(other));
    let line = |name: &str, plain: &str, other: &str| {
        let mark = if plain == other { " " } else { "*" };
        format!("{mark} {name:<32} {plain:<20} {other}")
    };
    let mut lines = vec![format!(
        "  {:<32} {:<20} {}",
        "field",
        "plain",
        foreign::NAME
    )];
    if plain.len() == other.len() {
        for ((name, here), (_, there)) in plain.iter().zip(&other) {
            lines.push(line(name, here, there));
        }
    } else {
        lines.extend(plain.iter().map(|(name, here)| line(name, here, "")));
        lines.extend(other.iter().map(|(name, there)| line(name, "", there)));
    }
    lines
}

/// A list that cannot be played to its end, or not for certain.
struct Damaged {
    name: String,
    list: Vec<u8>,
    room: usize,
}

/// Short lists that begin well.
const SHORT: u64 = 12;
const SHORT_LISTS: u64 = 40;
const RANDOM_LISTS: u64 = 2_000;

/// Lists of every kind of damage.
fn damaged(seed: u64) -> Vec<Damaged> {
    let mut lists = Lists(Vec::new());
    lists.little_room();
    lists.first_bytes();
    lists.switches();
    lists.gates();
    lists.event_lists();
    lists.cut_event_lists();
    lists.crowded_events();
    for index in 0..SHORT_LISTS {
        let short = lists::edges(seed, u64::MAX - index, SHORT);
        lists.cut(index, &short);
        lists.crowded(index, &short);
        lists.altered(index, &short, seed);
    }
    for index in 0..RANDOM_LISTS {
        lists.random(index, seed);
    }
    lists.0
}

struct Lists(Vec<Damaged>);

impl Lists {
    fn add(&mut self, name: String, list: Vec<u8>, room: usize) {
        self.0.push(Damaged { name, list, room });
    }

    fn little_room(&mut self) {
        for room in 0..=HEAD + 1 {
            self.add(format!("empty list, room for {room}"), Vec::new(), room);
            self.add(format!("a bad byte, room for {room}"), vec![0x7f], room);
            self.add(format!("a read, room for {room}"), vec![0x02], room);
        }
    }

    fn first_bytes(&mut self) {
        for (first, len) in (0..=u8::MAX).flat_map(|first| (0..12).map(move |len| (first, len))) {
            let mut list = vec![0x02, first];
            list.resize(2 + len, 0x01);
            self.add(format!("byte {first:02x} and {len} more"), list, 400);
        }
    }

    fn switches(&mut self) {
        for (first, on) in [0x03, 0x83]
            .into_iter()
            .flat_map(|first| (0..=u8::MAX).map(move |on| (first, on)))
        {
            let one = vec![first, 0, 1, on, 0, 2, 0, 0x02];
            let two = vec![first, 0, 1, 0, 0, 2, on, 0x02];
            self.add(format!("switches {on:02x}, gate 1"), one, 400);
            self.add(format!("switches {on:02x}, gate 2"), two, 400);
        }
    }

    fn gates(&mut self) {
        for (first, gate) in [0x06, 0x07, 0x86, 0x87]
            .into_iter()
            .flat_map(|first| (0..=u8::MAX).map(move |gate| (first, gate)))
        {
            let list = vec![0x02, first, gate, 0, 0, 0x02];
            self.add(format!("{first:02x} with gate {gate}"), list, 400);
        }
    }

    /// Every gate of a collect, and every number of an event list.
    fn event_lists(&mut self) {
        for (at, n) in [0x00, 0x80]
            .into_iter()
            .flat_map(|at| (0..=u8::MAX).map(move |n| (at, n)))
        {
            let lists = [
                vec![0x02, at | 0x0a, n, 3, 0x02],
                vec![0x02, at | 0x0a, n, 4, 0x02],
                vec![0x02, at | 0x0a, 1, n, 0x02],
                vec![0x02, at | 0x0b, n, 0, 0, 0, 0, 0, 0, 0, 0, 0x02],
                vec![0x02, at | 0x0c, n, 0x02],
            ];
            for list in lists {
                let name = format!("{:02x} with {:02x} and {:02x}", list[1], list[2], list[3]);
                self.add(name, list, 400);
            }
        }
    }

    /// Entries of an event list, or of none, cut off at every place.
    fn cut_event_lists(&mut self) {
        for (at, n) in [0x00, 0x80]
            .into_iter()
            .flat_map(|at| [0, 3, 4, 255].map(move |n| (at, n)))
        {
            let entries = [
                vec![at | 0x0a, n, n],
                vec![at | 0x0b, n, 0, 0, 0, 0, 0, 0, 0, 1],
                vec![at | 0x0c, n],
            ];
            for (entry, len) in entries
                .iter()
                .flat_map(|entry| (1..entry.len()).map(move |len| (entry, len)))
            {
                let list = [&[0x02], &entry[..len]].concat();
                self.add(
                    format!("{:02x} with {n:02x} cut at {len}", entry[0]),
                    list,
                    400,
                );
            }
        }
    }

    /// A command error that is collected, read and taken out, with every room for that.
    fn crowded_events(&mut self) {
        let error = [0x00, 0x62, 0x01, 0xff, 0xff];
        let listed = [
            0x0a, 1, 3, 0x0b, 3, 0, 0, 0, 0, 0, 0, 0, 0, 0x0c, 3, 0x0c, 3,
        ];
        let list = [&error[..], &listed].concat();
        for room in 0..HEAD + 28 {
            self.add(format!("events, room for {room}"), list.clone(), room);
        }
    }

    /// The list cut off at every place.
    fn cut(&mut self, index: u64, short: &List) {
        for len in 0..short.bytes.len() {
            let list = short.bytes[..len].to_vec();
            self.add(format!("short list {index} cut at {len}"), list, short.room);
        }
    }

    /// The list with less room than its answers take: every room for some lists, a third of a
    /// look more each time for the others.
    fn crowded(&mut self, index: u64, short: &List) {
        for room in (0..short.room).step_by(if index < 4 { 1 } else { LOOK / 3 }) {
            let list = short.bytes.clone();
            self.add(format!("short list {index}, room for {room}"), list, room);
        }
    }

    /// The list with another byte at some place.
    fn altered(&mut self, index: u64, short: &List, seed: u64) {
        let mut rng = Rng::new(seed, index);
        for _ in 0..50 {
            let mut list = short.bytes.clone();
            let at = rng.below(list.len() as u64) as usize;
            list[at] = rng.next() as u8;
            let room = list.len() * LOOK + HEAD;
            self.add(
                format!("short list {index}, other byte at {at}"),
                list,
                room,
            );
        }
    }

    fn random(&mut self, index: u64, seed: u64) {
        let mut rng = Rng::new(seed ^ 0x5eed, index);
        let len = rng.below(40) as usize;
        let top = rng.pick(&[0x0d, 0x10, 0x100]);
        let list: Vec<u8> = (0..len)
            .map(|_| rng.below(top) as u8 | rng.pick(&[0, 0, 0x80]))
            .collect();
        let room = rng.pick(&[0, 7, 8, 20, 160, len * LOOK + HEAD]);
        self.add(format!("random bytes {index}"), list, room);
    }
}

/// What was played and seen.
#[derive(Default)]
struct Tally {
    lists: u64,
    acts: [u64; words::ACTS.len()],
    cycles: u64,
    /// By code.
    accepted_commands: BTreeMap<u8, u64>,
    /// By number.
    refusals: [u64; 11],
    none_kept: u64,
    /// How often each bit of the event byte was newly seen.
    events: [u64; 8],
    breakpoints: [u64; words::BREAKPOINTS.len()],
    came: [u64; Came::NAMES.len()],
    /// By list.
    listed: [u64; CAPACITIES.len()],
    stops: [u64; words::STOPS.len()],
}

/// What is remembered of a board from look to look, for each gate: breakpoint and events.
type Seen = [(u8, u8); 2];

impl Tally {
    fn played(&self) -> u64 {
        self.acts.iter().sum()
    }

    fn count(&mut self, list: &List, mut answers: &[u8]) {
        self.cycles += list.cycles;
        add(&mut self.came, &list.came);
        add(&mut self.listed, &list.listed);
        let mut rest = list.bytes.as_slice();
        let mut seen = [Seen::default(); 2];
        while let Ok((entry, after)) = Entry::decode(rest) {
            let (answer, later) = answers.split_at(words::answer_len(answers[0]));
            if entry.act == Act::Look {
                self.count_look(&mut seen[entry.side as usize], answer);
            } else {
                self.count_act(entry.act, answer[0]);
            }
            (rest, answers) = (after, later);
        }
    }

    fn count_act(&mut self, act: Act, answer: u8) {
        self.acts[words::kind(act)] += 1;
        match (act, answer) {
            (Act::Command(code), 0x00) => *self.accepted_commands.entry(code).or_default() += 1,
            (_, number @ (1..=7 | 10)) => self.refusals[usize::from(number)] += 1,
            (_, 0x12) => self.none_kept += 1,
            _ => {}
        }
    }

    fn count_look(&mut self, seen: &mut Seen, look: &[u8]) {
        let records = look[1 + PAIRS..].chunks(RECORD);
        for (record, (breakpoint, events)) in records.zip(seen) {
            let risen = record[words::EVENTS_AT] & !*events;
            for (place, count) in self.events.iter_mut().enumerate() {
                *count += u64::from(risen >> place & 1);
            }
            let (was, is) = (*breakpoint, record[words::BREAKPOINT_AT]);
            if is == 0 && risen & 4 != 0 {
                self.breakpoints[usize::from(was)] += 1;
            }
            (*breakpoint, *events) = (is, record[words::EVENTS_AT]);
        }
    }

    fn print(&self) {
        println!(
            "{} lists, {} acts, {} cycles",
            self.lists,
            self.played(),
            self.cycles
        );
        print_counts("acts", &words::ACTS, &self.acts);
        let names = words::REFUSALS.map(|(_, name)| name);
        let counts = words::REFUSALS.map(|(number, _)| self.refusals[usize::from(number)]);
        print_counts("refusals", &names, &counts);
        println!("closes without a slip: {}", self.none_kept);
        let names = words::EVENTS.map(|(_, name)| name);
        let counts = words::EVENTS.map(|(place, _)| self.events[place as usize]);
        print_counts("event bits set", &names, &counts);
        print_counts("breakpoints met", &words::BREAKPOINTS, &self.breakpoints);
        let names = words::COMMANDS.map(|(_, name)| name);
        let count = |code| self.accepted_commands.get(&code).copied().unwrap_or(0);
        let counts = words::COMMANDS.map(|(code, _)| count(code));
        print_counts("commands accepted", &names, &counts);
        for (title, kinds) in Came::GROUPS {
            print_counts(title, &Came::NAMES[kinds.clone()], &self.came[kinds]);
        }
        print_counts("events listed", &words::LISTS, &self.listed);
        print_counts("damaged lists, by return", &words::STOPS, &self.stops);
    }
}

fn add<const N: usize>(counts: &mut [u64; N], more: &[u64; N]) {
    for (count, more) in counts.iter_mut().zip(more) {
        *count += more;
    }
}

fn print_counts(title: &str, names: &[&str], counts: &[u64]) {
    println!("{title}:");
    for (name, count) in names.iter().zip(counts) {
        println!("  {name:<22} {count:>12}");
    }
}

#[cfg(test)]
mod tests {
    use super::*;

    #[test]
    fn the_lists_reach_the_edges() {
        let mut bench = Bench::default();
        assert_eq!(bench.whole_lists(200_000, 7), Ok(()));
        assert_eq!(bench.damaged_lists(7), Ok(()));
        let tally = &bench.tally;
        let unplayed = tally.acts.iter().filter(|count| **count == 0).count();
        assert_eq!(unplayed, 1, "only looks are not counted as acts");
        for (number, name) in words::REFUSALS {
            assert!(tally.refusals[usize::from(number)] > 0, "{name}");
        }
        assert!(tally.none_kept > 0);
        for (place, name) in words::EVENTS {
            assert!(tally.events[place as usize] > 0, "{name}");
        }
        assert_eq!(tally.breakpoints[0], 0);
        assert!(tally.breakpoints[1..].iter().all(|count| *count > 0));
        for (name, count) in Came::NAMES.iter().zip(tally.came) {
            assert!(count > 0, "{name}");
        }
        assert_eq!(tally.listed[0], 0);
        for (capacity, listed) in CAPACITIES.iter().zip(tally.listed) {
            assert!(listed >= 2 * tally.lists * *capacity as u64);
        }
        assert_eq!(tally.accepted_commands.len(), words::COMMANDS.len());
        assert!(tally.stops.iter().all(|count| *count > 0));
    }

    #[test]
    fn a_difference_is_told_by_its_field() {
        let list = [0x02, 0x09, 0, 1, 0x08];
        let mut out = vec![0; 400];
        let code = replay(&list, &mut out);
        let mut changed = out.clone();
        changed[HEAD + 2 + 1 + PAIRS + words::EVENTS_AT] ^= 1;
        let told = difference(
            &list,
            &Outcome::new(code, &out),
            &Outcome::new(code, &changed),
        );
        assert!(told.contains("the look after act 2 differs"), "{told}");
        let marked: Vec<_> = told.lines().filter(|line| line.starts_with('*')).collect();
        assert_eq!(marked.len(), 1);
        assert!(marked[0].contains("gate 1 events"));
    }
}
