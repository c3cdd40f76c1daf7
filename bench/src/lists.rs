//! Makes lists of acts: some that look for edges, to compare, and some to time.

mod event_lists;

pub use event_lists::Came;

use crate::board::{Gate, Input, event};
use crate::replay::{Act, Answer, Boards, CAPACITIES, EVENT_READ, Entry, HEAD, LOOK, Side};
use crate::words::COMMANDS;

const END: i64 = 1 << 30;

/// Splitmix64.
pub struct Rng(u64);

impl Rng {
    /// The numbers of one list, of all those that come from a seed.
    pub fn new(seed: u64, list: u64) -> Rng {
        let mut rng = Rng(seed);
        Rng(rng.next() ^ list.wrapping_mul(0xd134_2543_de82_ef95))
    }

    pub fn next(&mut self) -> u64 {
        self.0 = self.0.wrapping_add(0x9e37_79b9_7f4a_7c15);
        let z = (self.0 ^ self.0 >> 30).wrapping_mul(0xbf58_476d_1ce4_e5b9);
        let z = (z ^ z >> 27).wrapping_mul(0x94d0_49bb_1331_11eb);
        z ^ z >> 31
    }

    /// From 0 to n - 1.
    pub fn below(&mut self, n: u64) -> u64 {
        ((u128::from(self.next()) * u128::from(n)) >> 64) as u64
    }

    pub fn one_in(&mut self, n: u64) -> bool {
        self.below(n) == 0
    }

    pub fn pick<T: Copy>(&mut self, from: &[T]) -> T {
        from[self.below(from.len() as u64) as usize]
    }

    /// A number of at most so many bits, each length as likely as another.
    fn sized(&mut self, bits: u32) -> i64 {
        let len = self.below(u64::from(bits) + 1);
        (self.next() & ((1 << len) - 1)) as i64
    }

    fn sign(&mut self) -> i64 {
        self.pick(&[-1, 1])
    }

    /// A number at most `by` away from `x`.
    fn near(&mut self, x: i64, by: i64) -> i64 {
        x - by + self.below(2 * by as u64 + 1) as i64
    }

    /// A number at or next to the end of some range, or a power of two.
    fn edge(&mut self) -> i64 {
        const EDGES: [i64; 12] = [
            0,
            1,
            -1,
            255,
            32_767,
            32_768,
            65_535,
            END - 1,
            END,
            -END,
            (1 << 31) - 1,
            -1 << 31,
        ];
        let edge = if self.one_in(4) {
            self.sign() << self.below(32)
        } else {
            self.pick(&EDGES)
        };
        if self.one_in(2) {
            self.near(edge, 2)
        } else {
            edge
        }
    }

    fn edge_word(&mut self) -> u16 {
        match self.below(3) {
            0 => self.below(7) as u16,
            1 => self.pick(&[32_766, 32_767, 32_768, 65_534, 65_535]),
            _ => self.next() as u16,
        }
    }
}

/// A list, and what it takes to play it.
pub struct List {
    pub bytes: Vec<u8>,
    pub acts: u64,
    pub cycles: u64,
    pub room: usize,
    /// What acts on event lists came to.
    pub came: [u64; Came::NAMES.len()],
    /// How many events were listed, by list.
    pub listed: [u64; CAPACITIES.len()],
}

/// How often what is done in a list.
struct Mix {
    scenes: [u64; Scene::ALL.len()],
    /// One in so many words of a packet has another act before it.
    disorder: u64,
    /// One in so many cycles turns a switch.
    switching: u64,
    /// One in so many values is an edge.
    edges: u64,
    /// One in so many acts on an event list is a remove.
    removes: u64,
}

#[derive(Clone, Copy)]
enum Scene {
    Packet,
    Edge,
    Move,
    Velocity,
    Ends,
    Break,
    Limits,
    Slips,
    Events,
    Again,
    Stray,
    Cycles,
    Reset,
}

impl Scene {
    /// Each with its usual weight.
    const ALL: [(Scene, u64); 13] = [
        (Scene::Packet, 16),
        (Scene::Edge, 8),
        (Scene::Move, 10),
        (Scene::Velocity, 4),
        (Scene::Ends, 3),
        (Scene::Break, 8),
        (Scene::Limits, 3),
        (Scene::Slips, 5),
        (Scene::Events, 16),
        (Scene::Again, 6),
        (Scene::Stray, 10),
        (Scene::Cycles, 10),
        (Scene::Reset, 1),
    ];
}

impl Mix {
    fn new(rng: &mut Rng) -> Mix {
        Mix {
            scenes: Scene::ALL.map(|(_, usual)| usual * rng.pick(&[0, 1, 2, 2, 4, 8]) + 1),
            disorder: rng.pick(&[4, 16, 64, 256]),
            switching: rng.pick(&[4, 40, 400, 2_000, 2_000]),
            edges: rng.pick(&[2, 6, 20]),
            removes: rng.pick(&[2, 3, 5, 20]),
        }
    }

    fn scene(&self, rng: &mut Rng) -> Scene {
        let mut at = rng.below(self.scenes.iter().sum());
        for ((scene, _), weight) in Scene::ALL.iter().zip(self.scenes) {
            if at < weight {
                return *scene;
            }
            at -= weight;
        }
        Scene::Cycles
    }
}

/// A list in the making. It is played as it grows, so that values can be chosen near the
/// positions and the clock as they stand.
struct Maker {
    rng: Rng,
    mix: Mix,
    looks: bool,
    boards: Boards,
    switches: [[Input; 2]; 2],
    /// The places of two readers of each event list.
    readers: [[u64; 2]; CAPACITIES.len()],
    list: List,
}

/// A list of about so many acts with a look after each.
pub fn edges(seed: u64, index: u64, acts: u64) -> List {
    let mut maker = Maker::new(Rng::new(seed, index), true);
    while maker.list.acts < acts {
        maker.scene();
    }
    maker.list
}

impl Maker {
    fn new(mut rng: Rng, looks: bool) -> Maker {
        let mix = Mix::new(&mut rng);
        Maker {
            rng,
            mix,
            looks,
            boards: Boards::new(),
            switches: [[Input::default(); 2]; 2],
            readers: [[0; 2]; CAPACITIES.len()],
            list: List {
                bytes: Vec::new(),
                acts: 0,
                cycles: 0,
                room: HEAD,
                came: [0; Came::NAMES.len()],
                listed: [0; CAPACITIES.len()],
            },
        }
    }

    fn act(&mut self, side: Side, act: Act) {
        self.answer(side, act);
    }

    /// Does an act, and says what it was answered.
    fn answer(&mut self, side: Side, act: Act) -> Answer {
        let entry = Entry { side, act };
        entry.encode(&mut self.list.bytes);
        let answer = self.boards.play(entry);
        self.list.acts += 1;
        self.list.room += EVENT_READ;
        self.list.cycles += match act {
            Act::Cycle(_) => 1,
            Act::Run(cycles) => u64::from(cycles),
            _ => 0,
        };
        if self.looks {
            self.look(side);
            if self.rng.one_in(16) {
                self.look(side.other());
            }
        }
        answer
    }

    fn look(&mut self, side: Side) {
        let act = Act::Look;
        Entry { side, act }.encode(&mut self.list.bytes);
        self.list.room += LOOK;
    }

    fn scene(&mut self) {
        let side = self.rng.pick(&[Side::A, Side::A, Side::B]);
        if !self.rng.one_in(12) {
            self.settle(side);
        }
        if self.rng.one_in(3) {
            self.select(side);
        }
        match self.mix.scene(&mut self.rng) {
            Scene::Packet => self.packet(side),
            Scene::Edge => self.edge_packet(side),
            Scene::Move => self.trapezoid(side),
            Scene::Velocity => self.velocity(side),
            Scene::Ends => self.ends(side),
            Scene::Break => self.break_scene(side),
            Scene::Limits => self.limits(side),
            Scene::Slips => self.slips(side),
            Scene::Events => self.events(side),
            Scene::Again => self.again(side),
            Scene::Stray => self.stray(side),
            Scene::Cycles => self.cycles(side),
            Scene::Reset => self.rare_reset(side),
        }
    }

    /// The current gate as it stands.
    fn gate(&self, side: Side) -> Gate {
        self.boards.gates(side)[self.boards.current(side)]
    }

    fn command(&mut self, side: Side, code: u8) {
        self.act(side, Act::Command(code));
    }

    /// Ends an open packet.
    fn settle(&mut self, side: Side) {
        while self.boards.takes_words(side) {
            let word = self.rng.edge_word();
            self.act(side, Act::Write(word));
        }
        while self.boards.gives_words(side) {
            self.act(side, Act::Read);
        }
    }

    fn select(&mut self, side: Side) {
        let code = self.rng.pick(&[0x01, 0x01, 0x02, 0x02, 0x08]);
        self.command(side, code);
        self.read_out(side, 1);
    }

    fn send_word(&mut self, side: Side, code: u8, word: u16) {
        self.command(side, code);
        self.disturb(side);
        self.act(side, Act::Write(word));
    }

    fn send_long(&mut self, side: Side, code: u8, value: i64) {
        self.command(side, code);
        self.disturb(side);
        self.act(side, Act::Write((value >> 16) as u16));
        self.disturb(side);
        self.act(side, Act::Write(value as u16));
    }

    fn read_out(&mut self, side: Side, words: u32) {
        for _ in 0..words {
            self.disturb(side);
            if self.boards.gives_words(side) {
                self.act(side, Act::Read);
            }
        }
    }

    /// Now and then another act in the middle of a packet.
    fn disturb(&mut self, side: Side) {
        if !self.rng.one_in(self.mix.disorder) {
            return;
        }
        match self.rng.below(4) {
            0 => self.cycle(side),
            1 => self.cycle(side.other()),
            2 => {
                let code = self.any_code();
                self.command(side, code);
            }
            _ => self.stray(side),
        }
    }

    fn any_code(&mut self) -> u8 {
        if self.rng.one_in(4) {
            self.rng.next() as u8
        } else {
            self.rng.pick(&COMMANDS).0
        }
    }

    fn cycle(&mut self, side: Side) {
        let counts = [self.count(), self.count()];
        let switches = &mut self.switches[side as usize];
        for (input, count) in switches.iter_mut().zip(counts) {
            input.count = count;
            if self.rng.one_in(self.mix.switching) {
                let switch = match self.rng.below(3) {
                    0 => &mut input.positive,
                    1 => &mut input.negative,
                    _ => &mut input.home,
                };
                *switch = !*switch;
            }
        }
        let inputs = *switches;
        self.act(side, Act::Cycle(inputs));
    }

    fn count(&mut self) -> i16 {
        match self.rng.below(8) {
            0 => self.rng.pick(&[-32_768, 32_767]),
            1 | 2 => self.rng.next() as i16,
            3 | 4 => 0,
            _ => (self.rng.sign() * self.rng.sized(8)) as i16,
        }
    }

    fn run(&mut self, side: Side, cycles: i64) {
        self.act(side, Act::Run(cycles.clamp(0, 65_535) as u16));
    }

    /// About so many cycles, at once or a few of them one by one.
    fn spend(&mut self, side: Side, cycles: i64) {
        if cycles > 6 && self.rng.one_in(2) {
            self.run(side, cycles);
        }
        let single = cycles.min(self.rng.sized(5));
        for _ in 0..single {
            self.cycle(side);
        }
    }

    fn cycles(&mut self, side: Side) {
        match self.rng.below(40) {
            0 if self.rng.one_in(40) => self.run(side, 65_535),
            0..=9 => {
                let cycles = self.rng.sized(9);
                self.run(side, cycles);
            }
            _ => {
                for _ in 0..=self.rng.below(4) {
                    self.cycle(side);
                }
            }
        }
    }

    fn rare_reset(&mut self, side: Side) {
        if self.rng.one_in(4) {
            self.act(side, Act::Reset);
        }
    }

    /// The value, or now and then an edge.
    fn or_edge(&mut self, value: i64) -> i64 {
        if self.rng.one_in(self.mix.edges) {
            self.rng.edge()
        } else {
            value
        }
    }

    /// A whole packet of any command, with values that fit.
    fn packet(&mut self, side: Side) {
        let code = self.rng.pick(&COMMANDS).0;
        match code {
            0x01 | 0x02 | 0x08 | 0x31 => {
                self.command(side, code);
                self.read_out(side, 1);
            }
            0x4a | 0x4b | 0x4c | 0x1d | 0x1e | 0x37 | 0x3e => {
                self.command(side, code);
                self.read_out(side, 2);
            }
            0x77 | 0x62 => {
                let power = self.rng.pick(&[32_767, 32_766, 16_384, 1, 0, 100, 20_000]);
                self.send_word(side, code, power);
            }
            0x34 => {
                let keep = self.rng.pick(&[0, 0xffff, 0xff9f, 0xff7f, 0xfffe, 0xfff9]);
                self.send_word(side, code, keep);
            }
            0x2f => {
                let mask = self.rng.pick(&[0, 0xffff, 0x0001, 0x0086, 0x0060, 0x0400]);
                self.send_word(side, code, mask);
            }
            0x5b => {
                let gates = self.rng.below(6) as u16;
                self.send_word(side, code, gates);
            }
            0x10 | 0x4d => {
                let target = i64::from(self.gate(side).target());
                let by = self.rng.sized(30);
                let position = self.rng.near(target, by).clamp(-END, END - 1);
                self.send_long(side, code, position);
            }
            0x11 => {
                let velocity = self.rng.sized(30);
                self.send_long(side, code, velocity);
            }
            0x12 => {
                let acceleration = self.rng.sign() * self.rng.sized(30).max(1);
                self.send_long(side, code, acceleration);
            }
            0x16 => {
                let point = self.point(side);
                self.send_long(side, code, point);
            }
            _ => self.command(side, code),
        }
    }

    /// A whole packet that takes words, with values at the ends of the ranges.
    fn edge_packet(&mut self, side: Side) {
        if self.rng.one_in(3) {
            let code = self.rng.pick(&[0x77, 0x62, 0x34, 0x2f, 0x5b]);
            let word = self.rng.edge_word();
            self.send_word(side, code, word);
        } else {
            let code = self.rng.pick(&[0x10, 0x11, 0x12, 0x16, 0x4d]);
            let value = self.rng.edge();
            self.send_long(side, code, value);
        }
        if self.rng.one_in(3) {
            self.update(side);
        }
    }

    fn update(&mut self, side: Side) {
        if self.rng.one_in(4) {
            let gates = self.rng.pick(&[1, 2, 3, 3, 3]);
            self.send_word(side, 0x5b, gates);
        } else {
            self.command(side, 0x1a);
        }
    }

    /// Lets a gate go again that a limit holds.
    fn clear_limits(&mut self, side: Side) {
        if self.gate(side).events & event::LIMITS != 0 && !self.rng.one_in(4) {
            let keep = self.rng.pick(&[0, 0xff9f, 0xff9f, 0xffdf, 0xffbf]);
            self.send_word(side, 0x34, keep);
        }
    }

    fn load_move(&mut self, side: Side, destination: i64, velocity: i64, acceleration: i64) {
        let destination = self.or_edge(destination.clamp(-END, END - 1));
        let velocity = self.or_edge(velocity.clamp(0, END - 1));
        let acceleration = self.or_edge(acceleration.clamp(1, END - 1));
        let sign = self.rng.pick(&[1, 1, 1, -1]);
        self.send_long(side, 0x10, destination);
        self.send_long(side, 0x11, velocity);
        self.send_long(side, 0x12, sign * acceleration);
    }

    /// A move that would take some given time, or is edged this way or that.
    fn trapezoid(&mut self, side: Side) {
        self.clear_limits(side);
        let gate = self.gate(side);
        let cycles = 1 + self.rng.sized(8);
        let bits = self.rng.pick(&[2, 2, 8, 16, 24, 31]);
        let steps = self.rng.sign() * self.rng.sized(bits);
        let destination = (i64::from(gate.target()) + steps).clamp(-END, END - 1);
        let parts = ((destination << 16) - gate.p).abs();
        let velocity = parts / cycles * (1 + self.rng.sized(3)) + self.rng.sized(4);
        let acceleration = parts / (cycles * cycles) * (1 + self.rng.sized(5)) / 2;
        let acceleration = match self.rng.below(8) {
            0 => acceleration << self.rng.below(10),
            1 => acceleration >> self.rng.below(10),
            _ => acceleration + self.rng.sized(4),
        };
        self.load_move(side, destination, velocity, acceleration);
        self.command(side, 0x09);
        self.update(side);
        for _ in 0..self.rng.below(4) {
            let part = self.rng.sized(6).min(cycles);
            self.spend(side, part);
            self.change_course(side, part);
        }
        self.spend(side, cycles * 2);
    }

    /// Another velocity, acceleration or destination while the gate moves.
    fn change_course(&mut self, side: Side, cycles: i64) {
        let gate = self.gate(side);
        let speed = i64::from(gate.v).abs();
        match self.rng.below(6) {
            0 => self.command(side, 0x46),
            1 => {
                let lower = speed >> self.rng.below(8);
                let velocity = self.rng.near(lower, 2).clamp(0, END - 1);
                self.send_long(side, 0x11, velocity);
            }
            2 => {
                let gentle = (speed >> self.rng.below(16)).clamp(1, END - 1);
                self.send_long(side, 0x12, gentle);
            }
            3 => {
                let ahead = (i64::from(gate.v) * self.rng.sized(4)) >> 16;
                let destination = self.rng.near(i64::from(gate.target()) + ahead, 2);
                self.send_long(side, 0x10, destination.clamp(-END, END - 1));
            }
            4 => {
                // To brake with it from now on is enough, or just not.
                let way = ((i64::from(gate.active.destination) << 16) - gate.p).abs();
                let just = speed * speed / (2 * way + 1);
                let by = just >> self.rng.below(12);
                let acceleration = self.rng.near(just, by).clamp(1, END - 1);
                self.send_long(side, 0x12, acceleration);
            }
            _ => {
                // It can be reached by braking from now on, or just not.
                let a = (speed >> self.rng.below(26)).max(1);
                let way = (speed * (speed + a) / (2 * a)) >> 16;
                let destination = i64::from(gate.target()) + way * i64::from(gate.v.signum());
                let destination = self.rng.near(destination, 2).clamp(-END, END - 1);
                self.send_long(side, 0x12, a);
                self.send_long(side, 0x10, destination);
            }
        }
        self.update(side);
        self.spend(side, cycles);
    }

    fn velocity(&mut self, side: Side) {
        self.clear_limits(side);
        let velocity = self.rng.sized(30);
        let cycles = 1 + self.rng.sized(6);
        let acceleration = velocity / cycles + self.rng.sized(4);
        self.load_move(side, 0, velocity, acceleration);
        self.command(side, 0x0a);
        self.update(side);
        self.spend(side, cycles + 4);
        if self.rng.one_in(3) {
            self.command(side, 0x46);
            self.update(side);
            self.spend(side, cycles + 4);
        }
    }

    /// Near an end of the range of positions, and on beyond it.
    fn ends(&mut self, side: Side) {
        self.clear_limits(side);
        let up = self.rng.one_in(2);
        let off = self.rng.sized(16);
        let position = if up { END - 1 - off } else { -END + off };
        self.send_long(side, 0x4d, position);
        let cycles = 1 + self.rng.sized(5);
        let speed = ((off << 16) / cycles + self.rng.sized(18)).clamp(0, END - 1);
        let acceleration = (speed >> self.rng.below(6)).clamp(1, END - 1);
        let sign = if up { 1 } else { -1 };
        self.send_long(side, 0x11, speed);
        self.send_long(side, 0x12, sign * acceleration);
        if self.rng.one_in(4) {
            // Too fast to stop at the end, from where the way back is the other way round.
            let end = if up { END - 1 } else { -END };
            self.send_long(side, 0x10, end);
            self.command(side, 0x09);
        } else {
            self.command(side, 0x0a);
        }
        self.update(side);
        self.spend(side, cycles + 6);
        if self.rng.one_in(2) {
            let gentle = self.rng.sized(10).max(1);
            self.send_long(side, 0x12, sign * gentle);
            self.update(side);
            self.spend(side, cycles + 6);
        }
    }

    /// A point that is met soon, or just not.
    fn point(&mut self, side: Side) -> i64 {
        let gate = self.gate(side);
        let ahead = (i64::from(gate.v) * self.rng.sized(4)) >> 16;
        let point = match self.rng.below(4) {
            0 => i64::from(gate.clock) + self.rng.sized(6),
            1 => self.rng.near(i64::from(gate.target()) + ahead, 2),
            2 => self.rng.near(i64::from(gate.actual), 2),
            _ => {
                let by = self.rng.sized(16);
                self.rng.near(i64::from(gate.actual), by)
            }
        };
        self.or_edge(point)
    }

    fn break_scene(&mut self, side: Side) {
        let code = self
            .rng
            .pick(&[0x17, 0x17, 0x18, 0x19, 0x1b, 0x1c, 0x35, 0x5e, 0x6d]);
        let point = match code {
            0x17 if !self.rng.one_in(4) => i64::from(self.gate(side).clock) + self.rng.sized(5),
            _ => self.point(side),
        };
        self.send_long(side, 0x16, point);
        if self.rng.one_in(2) {
            let auto = self.rng.pick(&[0x5c, 0x5c, 0x5d]);
            self.command(side, auto);
        }
        if self.rng.one_in(2) {
            self.load_for_latch(side);
        }
        self.command(side, code);
        let cycles = self.rng.sized(6);
        self.spend(side, cycles);
    }

    /// Something that is seen when a breakpoint latches.
    fn load_for_latch(&mut self, side: Side) {
        match self.rng.below(4) {
            0 => self.command(side, 0x46),
            1 => {
                let velocity = self.rng.sized(28);
                self.send_long(side, 0x11, velocity);
            }
            2 => {
                let mode = self.rng.pick(&[0x09, 0x0a]);
                self.command(side, mode);
            }
            _ => {
                let target = i64::from(self.gate(side).target());
                let by = self.rng.sized(10);
                let destination = self.rng.near(target, by).clamp(-END, END - 1);
                self.send_long(side, 0x10, destination);
            }
        }
    }

    /// Switches go on and off, their bits are cleared, the gate goes on.
    fn limits(&mut self, side: Side) {
        for _ in 0..=self.rng.below(4) {
            for gate in 0..2 {
                if self.rng.one_in(2) {
                    let input = &mut self.switches[side as usize][gate];
                    let bits = self.rng.below(8);
                    input.positive = bits & 1 != 0;
                    input.negative = bits & 2 != 0;
                    input.home = bits & 4 != 0;
                }
            }
            self.cycle(side);
            if self.rng.one_in(2) {
                self.clear_limits(side);
            }
            if self.rng.one_in(2) {
                self.update(side);
            }
            self.cycle(side);
        }
        self.switches[side as usize] = [Input::default(); 2];
        if self.rng.one_in(2) {
            self.cycle(side);
        }
        for select in [0x01, 0x02] {
            self.command(side, select);
            self.read_out(side, 1);
            self.clear_limits(side);
            self.update(side);
        }
    }

    fn slips(&mut self, side: Side) {
        let mask = self.rng.pick(&[0xffff, 0xffff, 0x00e7, 0x0080, 0x0001]);
        self.send_word(side, 0x2f, mask);
        if self.rng.one_in(2) {
            // Out of range, so that there is something to call for.
            self.send_word(side, 0x62, 0x8000);
        }
        if self.rng.one_in(3) {
            self.command(side, 0x08);
            self.read_out(side, 1);
        }
        for _ in 0..=self.rng.below(4) {
            self.slip_act(side);
            if self.rng.one_in(4) {
                self.slip_act(side.other());
            }
        }
    }

    fn slip_act(&mut self, side: Side) {
        let gate = self.rng.below(2) as usize;
        let word = self.rng.pick(&[0, 0xffff, 0xff7f, 0xff9f, 0x00fe, 0x5555]);
        let act = match self.rng.below(5) {
            0 | 1 => Act::Take,
            2 | 3 => Act::Close { gate, word },
            _ => Act::CloseElsewhere { gate, word },
        };
        self.act(side, act);
    }

    /// An act without regard to the state of the port.
    fn stray(&mut self, side: Side) {
        match self.rng.below(14) {
            0..=2 => {
                let word = self.rng.edge_word();
                self.act(side, Act::Write(word));
            }
            3..=5 => self.act(side, Act::Read),
            6 | 7 => {
                let code = self.any_code();
                self.command(side, code);
            }
            8 => {
                let code = self.rng.next() as u8;
                self.command(side, code);
            }
            9 | 10 => self.slip_act(side),
            11 | 12 => self.list_act(side),
            _ => {
                if self.rng.one_in(6) {
                    self.act(side, Act::Reset);
                } else {
                    self.command(side, 0x08);
                }
            }
        }
    }
}

/// A list to be timed.
pub struct Timed {
    pub name: String,
    pub list: List,
}

const TIMED_CYCLES: i64 = 60_000;
const TIMED_ACTS: u64 = 60_000;

/// The lists to be timed: cycles as acts of their own, the same cycles in runs, and other acts.
pub fn timed() -> Vec<Timed> {
    type Fill = fn(&mut Timing);
    let kinds: [(&str, Fill); 4] = [
        ("cruise", cruise),
        ("ramps", ramps),
        ("rest", rest),
        ("velocity", velocity),
    ];
    let mut lists = Vec::new();
    for runs in [false, true] {
        for (name, fill) in kinds {
            let mut timing = Timing {
                maker: Maker::new(Rng::new(1, 1), false),
                runs,
            };
            fill(&mut timing);
            let how = if runs { ", runs" } else { "" };
            lists.push(Timed {
                name: format!("{name}{how}"),
                list: timing.end(),
            });
        }
    }
    let others = [
        ("commands", commands()),
        ("orders", orders()),
        ("collects", collects()),
    ];
    lists.extend(others.map(|(name, list)| Timed {
        name: name.to_string(),
        list,
    }));
    lists
}

/// Lists that end with one dear cycle, each behind the same list without that cycle.
pub fn dear() -> Vec<Timed> {
    type Fill = fn(&mut Timing);
    let kinds: [(&str, Fill); 2] = [("dearest", dearest), ("dearest of a motor", dearest_motor)];
    let mut lists = Vec::new();
    for (name, fill) in kinds {
        for (when, cycles) in [(", before", 0), ("", 1)] {
            let mut timing = Timing {
                maker: Maker::new(Rng::new(1, 1), false),
                runs: false,
            };
            timing.power();
            fill(&mut timing);
            timing.cycles(cycles);
            lists.push(Timed {
                name: format!("{name}{when}"),
                list: timing.end(),
            });
        }
    }
    lists
}

/// A list to be timed, in the making; both gates of board a do the same kind of thing.
struct Timing {
    maker: Maker,
    runs: bool,
}

impl Timing {
    fn select(&mut self, gate: u8) {
        self.maker.command(Side::A, gate);
        self.maker.act(Side::A, Act::Read);
    }

    fn send(&mut self, code: u8, value: i64) {
        self.maker.command(Side::A, code);
        self.maker.act(Side::A, Act::Write((value >> 16) as u16));
        self.maker.act(Side::A, Act::Write(value as u16));
    }

    fn send_word(&mut self, code: u8, word: u16) {
        self.maker.command(Side::A, code);
        self.maker.act(Side::A, Act::Write(word));
    }

    fn power(&mut self) {
        for gate in 1..=2 {
            self.select(gate);
            self.send_word(0x62, 20_000);
        }
    }

    /// The same move for both gates, at the largest velocity.
    fn send_both(&mut self, destination: i64, acceleration: i64) {
        for gate in 1..=2 {
            self.select(gate);
            self.send(0x10, destination);
            self.send(0x11, END - 1);
            self.send(0x12, acceleration);
        }
        self.send_word(0x5b, 3);
    }

    fn cycles(&mut self, cycles: i64) {
        if self.runs {
            self.maker.run(Side::A, cycles);
            return;
        }
        for _ in 0..cycles {
            let inputs = [0, 1].map(|_| Input {
                count: (self.maker.rng.next() as i16) >> 8,
                ..Input::default()
            });
            self.maker.act(Side::A, Act::Cycle(inputs));
        }
    }

    fn end(mut self) -> List {
        self.maker.look(Side::A);
        self.maker.list
    }
}

/// From rest, at the largest acceleration, to a destination that is near: each gate's search asks
/// all it may.
fn dearest(timing: &mut Timing) {
    timing.send_both(16_000, -END);
}

/// At 1,024 microsteps a cycle each cycle, the most that docs/SPEED.md takes a motor to have. Two
/// cycles bring each gate to 2,048; then it is sent to a destination that 1,536 just allows, so that
/// its search asks for 3,072, for the speed above 1,024, for the guess and for the speed above it.
fn dearest_motor(timing: &mut Timing) {
    timing.send_both(END - 1, 1 << 26);
    timing.cycles(2);
    timing.send_both(5_120, 1 << 26);
}

fn cruise(timing: &mut Timing) {
    timing.power();
    for gate in 1..=2 {
        timing.select(gate);
        timing.send(0x4d, -END);
        timing.send(0x10, END - 1);
        timing.send(0x11, 3_000_000 + i64::from(gate));
        timing.send(0x12, 100_003);
    }
    timing.send_word(0x5b, 3);
    timing.cycles(TIMED_CYCLES);
}

/// Moves that speed up for some fifty cycles and slow down for as many.
fn ramps(timing: &mut Timing) {
    const CYCLES: i64 = 100;
    timing.power();
    for _ in 0..TIMED_CYCLES / CYCLES {
        for gate in 1..=2 {
            timing.select(gate);
            let acceleration = 2_000 + timing.maker.rng.below(200_000) as i64;
            let way = (acceleration * CYCLES * CYCLES / 4) >> 16;
            let target = i64::from(timing.maker.gate(Side::A).target());
            let destination = if target < 0 {
                target + way
            } else {
                target - way
            };
            timing.send(0x10, destination);
            timing.send(0x11, END - 1);
            timing.send(0x12, acceleration);
        }
        timing.send_word(0x5b, 3);
        timing.cycles(CYCLES);
    }
}

fn rest(timing: &mut Timing) {
    timing.power();
    timing.cycles(TIMED_CYCLES);
}

/// Velocity mode; the speed changes for about half of the cycles.
fn velocity(timing: &mut Timing) {
    const CYCLES: i64 = 200;
    timing.power();
    for _ in 0..TIMED_CYCLES / CYCLES {
        for gate in 1..=2 {
            timing.select(gate);
            timing.maker.command(Side::A, 0x0a);
            let velocity = timing.maker.rng.below(1 << 24) as i64;
            let sign = timing.maker.rng.sign();
            timing.send(0x11, velocity);
            timing.send(0x12, sign * (velocity / CYCLES + 1));
        }
        timing.send_word(0x5b, 3);
        timing.cycles(CYCLES);
    }
}

/// Dense packets, and hardly a cycle.
fn commands() -> List {
    let mut maker = Maker::new(Rng::new(1, 2), false);
    maker.mix.disorder = 1_000;
    while maker.list.acts < TIMED_ACTS {
        maker.packet(Side::A);
        maker.settle(Side::A);
        if maker.rng.one_in(20) {
            maker.cycle(Side::A);
        }
    }
    maker.look(Side::A);
    maker.list
}

/// Commands without words.
fn orders() -> List {
    alternate([0x09, 0x0a].map(Act::Command))
}

/// Collects of either gate, of which no event is new.
fn collects() -> List {
    alternate([1, 2].map(|gate| Act::Collect { gate, list: 3 }))
}

fn alternate(acts: [Act; 2]) -> List {
    let mut maker = Maker::new(Rng::new(1, 3), false);
    while maker.list.acts < TIMED_ACTS {
        for act in acts {
            maker.act(Side::A, act);
        }
    }
    maker.look(Side::A);
    maker.list
}
