//! A board of two stepper gates, as docs/BOARD.md, GATE.md, EVENTS.md, PHASES.md and STAGES.md
//! define it.

use crate::event_list::{Event, EventList};

#[cfg(test)]
mod tests;

/// Positions run from -END to END - 1 microsteps, accelerations too.
const END: i32 = 1 << 30;
/// The largest velocity, in parts a cycle.
const FASTEST: u32 = (1 << 30) - 1;
/// A microstep is 2^16 parts.
const PART_BITS: u32 = 16;
const FULL_POWER: u16 = 32_767;

#[derive(Clone, Copy, Debug, PartialEq, Eq)]
#[repr(u8)]
pub enum Refusal {
    Unknown = 1,
    PacketOpen,
    NotTaking,
    NotGiving,
    OutOfRange,
    NoCall,
    NoSlip,
    NoRoom = 10,
}

/// The places of the event bits.
pub mod event {
    pub const MOTION_COMPLETE: u8 = 1 << 0;
    pub const WRAP_AROUND: u8 = 1 << 1;
    pub const BREAKPOINT: u8 = 1 << 2;
    pub const POSITIVE_LIMIT: u8 = 1 << 5;
    pub const NEGATIVE_LIMIT: u8 = 1 << 6;
    pub const COMMAND_ERROR: u8 = 1 << 7;
    pub const LIMITS: u8 = POSITIVE_LIMIT | NEGATIVE_LIMIT;
}

#[derive(Clone, Copy, Debug, PartialEq, Eq)]
#[repr(u8)]
pub enum Mode {
    Trapezoidal,
    Velocity,
}

#[derive(Clone, Copy, Debug, PartialEq, Eq)]
#[repr(u8)]
pub enum Motor {
    TwoPhase,
    ThreePhase,
}

#[derive(Clone, Copy, Debug, PartialEq, Eq)]
#[repr(u8)]
pub enum Breakpoint {
    Off,
    Time,
    TargetAbove,
    TargetBelow,
    ActualAbove,
    ActualBelow,
    MotionComplete,
    External,
}

/// What a cycle brings to one gate.
#[derive(Clone, Copy, Debug, Default, PartialEq, Eq)]
pub struct Input {
    pub count: i16,
    pub positive: bool,
    pub negative: bool,
    pub home: bool,
}

#[derive(Clone, Copy, Debug, PartialEq, Eq)]
pub struct Registers {
    pub destination: i32,
    pub velocity: u32,
    pub acceleration: i32,
    pub mode: Mode,
    pub power: u16,
}

impl Registers {
    const RESET: Registers = Registers {
        destination: 0,
        velocity: 0,
        acceleration: 1,
        mode: Mode::Trapezoidal,
        power: 0,
    };
}

#[derive(Clone, Copy, Debug, PartialEq, Eq)]
pub struct Gate {
    pub buffered: Registers,
    pub active: Registers,
    /// The target position P, in parts.
    pub p: i64,
    /// The velocity V, in parts a cycle.
    pub v: i32,
    pub halted: bool,
    pub rested: bool,
    pub actual: i32,
    pub breakpoint: Breakpoint,
    pub point: u32,
    pub auto_update: bool,
    pub events: u8,
    /// The events that were set at the last collect.
    pub found: u8,
    pub mask: u16,
    pub positive_armed: bool,
    pub negative_armed: bool,
    pub motor: Motor,
    pub slip_out: bool,
    pub clock: u32,
}

impl Gate {
    const NEW: Gate = Gate {
        buffered: Registers::RESET,
        active: Registers::RESET,
        p: 0,
        v: 0,
        halted: false,
        rested: true,
        actual: 0,
        breakpoint: Breakpoint::Off,
        point: 0,
        auto_update: true,
        events: 0,
        found: 0,
        mask: 0,
        positive_armed: true,
        negative_armed: true,
        motor: Motor::TwoPhase,
        slip_out: false,
        clock: 0,
    };

    fn reset(&mut self) {
        *self = Gate {
            slip_out: self.slip_out,
            ..Gate::NEW
        };
    }

    /// The target position in microsteps, rounded down.
    pub fn target(&self) -> i32 {
        (self.p >> PART_BITS) as i32
    }

    fn at_rest(&self) -> bool {
        self.v == 0 && (self.halted || self.active.velocity == 0 || self.at_destination())
    }

    fn at_destination(&self) -> bool {
        self.active.mode == Mode::Trapezoidal && self.distance() == 0
    }

    /// How far the destination is ahead of the target position, in parts.
    fn distance(&self) -> i64 {
        (i64::from(self.active.destination) << PART_BITS) - self.p
    }

    fn calls(&self) -> bool {
        u16::from(self.events) & self.mask != 0
    }

    fn status(&self, axis: usize) -> u16 {
        u16::from(self.events) | u16::from(!self.at_rest()) << 10 | (axis as u16) << 12
    }

    fn clear_events(&mut self, keep: u16) {
        self.events &= keep as u8;
    }

    pub fn new_events(&self) -> u8 {
        self.events & !self.found
    }

    /// Lists the new events under the gate's number (1 or 2), all or none.
    fn collect(&mut self, number: u8, list: &mut EventList) -> Result<(), Refusal> {
        let mut new = self.new_events();
        let end = list.end();
        while new != 0 {
            let event = Event {
                gate: number,
                place: new.trailing_zeros() as u8,
                clock: self.clock,
            };
            new &= new - 1;
            let repeated = list.newest().is_some_and(|newest| event.repeats(newest));
            if !repeated && !list.push(event) {
                list.take_back(end);
                return Err(Refusal::NoRoom);
            }
        }
        self.found = self.events;
        Ok(())
    }

    fn latch(&mut self) {
        self.active = self.buffered;
        if self.events & event::LIMITS == 0 {
            self.halted = false;
        }
    }

    fn halt(&mut self) {
        self.v = 0;
        self.halted = true;
    }

    fn cycle(&mut self, input: Input) {
        self.clock = self.clock.wrapping_add(1);
        self.actual = wrap_position(self.actual + i32::from(input.count));
        self.watch_limits(input);
        if self.breakpoint_met(input.home) {
            self.breakpoint = Breakpoint::Off;
            self.events |= event::BREAKPOINT;
            if self.auto_update {
                self.latch();
            }
        }
        self.travel();
        let rests = self.at_rest();
        if rests && !self.rested {
            self.events |= event::MOTION_COMPLETE;
        }
        self.rested = rests;
    }

    fn watch_limits(&mut self, input: Input) {
        if !input.positive {
            self.positive_armed = true;
        } else if self.positive_armed && self.events & event::LIMITS == 0 {
            self.positive_armed = false;
            self.events |= event::POSITIVE_LIMIT;
            self.halt();
        }
        if !input.negative {
            self.negative_armed = true;
        } else if self.negative_armed && self.events & event::LIMITS == 0 {
            self.negative_armed = false;
            self.events |= event::NEGATIVE_LIMIT;
            self.halt();
        }
    }

    fn breakpoint_met(&self, home: bool) -> bool {
        match self.breakpoint {
            Breakpoint::Off => false,
            Breakpoint::Time => self.clock == self.point,
            Breakpoint::TargetAbove => self.target() >= self.point as i32,
            Breakpoint::TargetBelow => self.target() <= self.point as i32,
            Breakpoint::ActualAbove => self.actual >= self.point as i32,
            Breakpoint::ActualBelow => self.actual <= self.point as i32,
            Breakpoint::MotionComplete => self.events & event::MOTION_COMPLETE != 0,
            Breakpoint::External => home,
        }
    }

    fn travel(&mut self) {
        self.v = self.next_velocity();
        let moved = self.p + i64::from(self.v);
        self.p = wrap_parts(moved);
        if self.p != moved {
            self.events |= event::WRAP_AROUND;
        }
    }

    fn next_velocity(&self) -> i32 {
        if self.halted {
            return 0;
        }
        match self.active.mode {
            Mode::Velocity => self.cruise(),
            Mode::Trapezoidal => self.approach(),
        }
    }

    fn cruise(&self) -> i32 {
        let Registers {
            velocity,
            acceleration,
            ..
        } = self.active;
        let goal = signed(velocity, acceleration < 0);
        toward(self.v, goal, acceleration.abs())
    }

    fn approach(&self) -> i32 {
        let distance = self.distance();
        let against = (self.v < 0 && distance > 0) || (self.v > 0 && distance < 0);
        if distance == 0 || against {
            return toward(self.v, 0, self.active.acceleration.abs());
        }
        let speed = approach_speed(
            self.v.unsigned_abs(),
            self.active.velocity,
            self.active.acceleration.unsigned_abs(),
            distance.unsigned_abs(),
        );
        signed(speed, distance < 0)
    }

    fn phases(&self) -> [i32; 2] {
        phases(self.target(), self.active.power, self.motor)
    }

    fn run(&mut self, order: Order) {
        match order {
            Order::Mode(mode) => self.buffered.mode = mode,
            Order::Stop => self.buffered.velocity = 0,
            Order::Update => self.latch(),
            Order::AutoUpdate(on) => self.auto_update = on,
            Order::Break(breakpoint) => self.breakpoint = breakpoint,
            Order::Motor(motor) => self.motor = motor,
        }
    }

    fn run_word(&mut self, order: WordOrder, word: u16) -> Result<(), Refusal> {
        match order {
            WordOrder::BufferedPower => self.buffered.power = self.power(word)?,
            WordOrder::Power => {
                let power = self.power(word)?;
                self.buffered.power = power;
                self.active.power = power;
            }
            WordOrder::Status => self.clear_events(word),
            WordOrder::Mask => self.mask = word,
        }
        Ok(())
    }

    fn run_long(&mut self, order: LongOrder, value: u32) -> Result<(), Refusal> {
        match order {
            LongOrder::Destination => self.buffered.destination = self.position(value)?,
            LongOrder::Velocity => {
                self.buffered.velocity = self.fitting(value, value <= FASTEST)?;
            }
            LongOrder::Acceleration => {
                let acceleration = self.position(value)?;
                self.buffered.acceleration = self.fitting(acceleration, acceleration != 0)?;
            }
            LongOrder::Point => self.point = value,
            LongOrder::Actual => {
                self.actual = self.position(value)?;
                self.p = i64::from(self.actual) << PART_BITS;
                self.halt();
            }
        }
        Ok(())
    }

    fn power(&mut self, word: u16) -> Result<u16, Refusal> {
        self.fitting(word, word <= FULL_POWER)
    }

    fn position(&mut self, value: u32) -> Result<i32, Refusal> {
        let value = value as i32;
        self.fitting(value, (-END..END).contains(&value))
    }

    fn fitting<T>(&mut self, value: T, fits: bool) -> Result<T, Refusal> {
        if fits {
            Ok(value)
        } else {
            self.events |= event::COMMAND_ERROR;
            Err(Refusal::OutOfRange)
        }
    }

    fn answer(&self, question: Question) -> u32 {
        match question {
            Question::Destination => self.buffered.destination as u32,
            Question::Velocity => self.buffered.velocity,
            Question::Acceleration => self.buffered.acceleration as u32,
            Question::TargetPosition => self.target() as u32,
            Question::TargetVelocity => self.v as u32,
            Question::ActualPosition => self.actual as u32,
            Question::Time => self.clock,
        }
    }
}

/// Goes round at the ends of -2^30 ..= 2^30 - 1, which are 31 bits.
fn wrap_position(x: i32) -> i32 {
    x << 1 >> 1
}

/// Goes round at the ends of -2^46 ..= 2^46 - 1, which are 47 bits.
fn wrap_parts(x: i64) -> i64 {
    x << 17 >> 17
}

fn signed(speed: u32, negative: bool) -> i32 {
    let speed = speed as i32;
    if negative { -speed } else { speed }
}

/// `v` taken toward `goal` by at most `by`. Velocities have 30 bits and a sign, so their
/// difference fits.
fn toward(v: i32, goal: i32, by: i32) -> i32 {
    v + (goal - v).max(-by).min(by)
}

/// The speed of a gate that runs at `speed` toward a destination `distance` parts ahead: the
/// largest one up to `limit` and `speed + a` from which it can still stop in time, or
/// `speed - a` if that is larger.
fn approach_speed(speed: u32, limit: u32, a: u32, distance: u64) -> u32 {
    let top = limit.min(speed + a);
    let slowest = speed.saturating_sub(a);
    if top <= slowest {
        return slowest;
    }
    // A speed of q * a + r has reach (q + 1) * (speed + r) / 2. With speeds below 2^30 the
    // product stays below 2^61.
    let (q, r) = (top / a, top % a);
    if (u64::from(q) + 1) * (u64::from(top) + u64::from(r)) <= 2 * distance {
        return top;
    }
    // top <= slowest + 2 * a, so the q that is sought is at most two lower, or braking as hard
    // as the gate can is not enough.
    let (a, mut q) = (u64::from(a), u64::from(q));
    let mut reach = a * q * (q + 1) / 2;
    while reach > distance {
        reach -= a * q;
        if a * q <= u64::from(slowest) {
            return slowest;
        }
        q -= 1;
    }
    // reach + a * (q + 1) > distance, so what is left has 32 bits.
    let r = (distance - reach) as u32 / (q as u32 + 1);
    ((a * q) as u32 + r).max(slowest)
}

/// T(k): the whole number nearest 32,767 * sin(k * 90 degrees / 64).
const QUARTER: [i32; 65] = [
    0, 804, 1608, 2410, 3212, 4011, 4808, 5602, 6393, 7179, 7962, 8739, 9512, 10278, 11039, 11793,
    12539, 13279, 14010, 14732, 15446, 16151, 16846, 17530, 18204, 18868, 19519, 20159, 20787,
    21403, 22005, 22594, 23170, 23731, 24279, 24811, 25329, 25832, 26319, 26790, 27245, 27683,
    28105, 28510, 28898, 29268, 29621, 29956, 30273, 30571, 30852, 31113, 31356, 31580, 31785,
    31971, 32137, 32285, 32412, 32521, 32609, 32678, 32728, 32757, 32767,
];

const WAVE: [i32; 256] = wave();

const fn wave() -> [i32; 256] {
    let mut wave = [0; 256];
    let mut k = 0;
    while k < 64 {
        wave[k] = QUARTER[k];
        wave[k + 64] = QUARTER[64 - k];
        wave[k + 128] = -QUARTER[k];
        wave[k + 192] = -QUARTER[64 - k];
        k += 1;
    }
    wave
}

fn phases(position: i32, power: u16, motor: Motor) -> [i32; 2] {
    let ahead = match motor {
        Motor::TwoPhase => 64,
        Motor::ThreePhase => 85,
    };
    let angle = position as u8;
    [angle, angle.wrapping_add(ahead)]
        .map(|place| WAVE[usize::from(place)] * i32::from(power) / i32::from(FULL_POWER))
}

/// What a stage keeps of a number.
fn cut(step: i32, x: i32) -> i32 {
    let x = x.clamp(-32_767, 32_767);
    x - x % step
}

#[derive(Clone, Copy)]
enum Order {
    Mode(Mode),
    Stop,
    Update,
    AutoUpdate(bool),
    Break(Breakpoint),
    Motor(Motor),
}

#[derive(Clone, Copy, Debug, PartialEq, Eq)]
enum WordOrder {
    BufferedPower,
    Power,
    Status,
    Mask,
}

#[derive(Clone, Copy, Debug, PartialEq, Eq)]
enum LongOrder {
    Destination,
    Velocity,
    Acceleration,
    Point,
    Actual,
}

#[derive(Clone, Copy)]
enum Question {
    Destination,
    Velocity,
    Acceleration,
    TargetPosition,
    TargetVelocity,
    ActualPosition,
    Time,
}

#[derive(Clone, Copy)]
enum Command {
    Select(usize),
    SelectCaller,
    Status,
    Run(Order),
    TakeWord(WordOrder),
    TakeLong(LongOrder),
    MultiUpdate,
    Give(Question),
}

impl Command {
    fn decode(code: u8) -> Option<Command> {
        Some(match code {
            0x01 => Command::Select(0),
            0x02 => Command::Select(1),
            0x08 => Command::SelectCaller,
            0x31 => Command::Status,
            0x09 => Command::Run(Order::Mode(Mode::Trapezoidal)),
            0x0a => Command::Run(Order::Mode(Mode::Velocity)),
            0x46 => Command::Run(Order::Stop),
            0x1a => Command::Run(Order::Update),
            0x5c => Command::Run(Order::AutoUpdate(true)),
            0x5d => Command::Run(Order::AutoUpdate(false)),
            0x17 => Command::Run(Order::Break(Breakpoint::Time)),
            0x18 => Command::Run(Order::Break(Breakpoint::TargetAbove)),
            0x19 => Command::Run(Order::Break(Breakpoint::TargetBelow)),
            0x1b => Command::Run(Order::Break(Breakpoint::ActualAbove)),
            0x1c => Command::Run(Order::Break(Breakpoint::ActualBelow)),
            0x35 => Command::Run(Order::Break(Breakpoint::MotionComplete)),
            0x5e => Command::Run(Order::Break(Breakpoint::External)),
            0x6d => Command::Run(Order::Break(Breakpoint::Off)),
            0x74 => Command::Run(Order::Motor(Motor::TwoPhase)),
            0x73 => Command::Run(Order::Motor(Motor::ThreePhase)),
            0x77 => Command::TakeWord(WordOrder::BufferedPower),
            0x62 => Command::TakeWord(WordOrder::Power),
            0x34 => Command::TakeWord(WordOrder::Status),
            0x2f => Command::TakeWord(WordOrder::Mask),
            0x5b => Command::MultiUpdate,
            0x10 => Command::TakeLong(LongOrder::Destination),
            0x11 => Command::TakeLong(LongOrder::Velocity),
            0x12 => Command::TakeLong(LongOrder::Acceleration),
            0x16 => Command::TakeLong(LongOrder::Point),
            0x4d => Command::TakeLong(LongOrder::Actual),
            0x4a => Command::Give(Question::Destination),
            0x4b => Command::Give(Question::Velocity),
            0x4c => Command::Give(Question::Acceleration),
            0x1d => Command::Give(Question::TargetPosition),
            0x1e => Command::Give(Question::TargetVelocity),
            0x37 => Command::Give(Question::ActualPosition),
            0x3e => Command::Give(Question::Time),
            _ => return None,
        })
    }
}

/// What the port waits for. A packet belongs to the current gate, which no act but a reset
/// changes while the packet is open.
#[derive(Clone, Copy, Debug, PartialEq, Eq)]
enum Port {
    Idle,
    TakingWord(WordOrder),
    TakingGates,
    TakingHigh(LongOrder),
    TakingLow(LongOrder, u16),
    GivingTwo(u32),
    GivingOne(u16),
}

/// A board over a stage whose step is `STEP`.
pub struct Board<const STEP: i32> {
    gates: [Gate; 2],
    current: usize,
    port: Port,
    shown: [[i32; 2]; 2],
}

impl<const STEP: i32> Board<STEP> {
    pub fn new() -> Self {
        Board {
            gates: [Gate::NEW; 2],
            current: 0,
            port: Port::Idle,
            shown: [[0; 2]; 2],
        }
    }

    pub fn gates(&self) -> &[Gate; 2] {
        &self.gates
    }

    /// For each gate phase A and phase B as the stage keeps them.
    pub fn shown(&self) -> &[[i32; 2]; 2] {
        &self.shown
    }

    pub fn current(&self) -> usize {
        self.current
    }

    pub fn takes_words(&self) -> bool {
        !self.gives_words() && self.port != Port::Idle
    }

    pub fn gives_words(&self) -> bool {
        matches!(self.port, Port::GivingTwo(_) | Port::GivingOne(_))
    }

    pub fn command(&mut self, code: u8) -> Result<(), Refusal> {
        if self.port != Port::Idle {
            return Err(Refusal::PacketOpen);
        }
        match Command::decode(code).ok_or(Refusal::Unknown)? {
            Command::Select(gate) => self.select(gate),
            Command::SelectCaller => {
                let caller = self.gates.iter().position(Gate::calls);
                self.select(caller.ok_or(Refusal::NoCall)?);
            }
            Command::Status => self.select(self.current),
            Command::Run(order) => self.gates[self.current].run(order),
            Command::TakeWord(order) => self.port = Port::TakingWord(order),
            Command::TakeLong(order) => self.port = Port::TakingHigh(order),
            Command::MultiUpdate => self.port = Port::TakingGates,
            Command::Give(question) => {
                self.port = Port::GivingTwo(self.gates[self.current].answer(question));
            }
        }
        Ok(())
    }

    /// Makes a gate current and gives its status.
    fn select(&mut self, gate: usize) {
        self.current = gate;
        self.port = Port::GivingOne(self.gates[gate].status(gate));
    }

    pub fn write(&mut self, word: u16) -> Result<(), Refusal> {
        match self.port {
            Port::TakingHigh(order) => {
                self.port = Port::TakingLow(order, word);
                Ok(())
            }
            Port::TakingLow(order, high) => {
                self.port = Port::Idle;
                let value = u32::from(high) << 16 | u32::from(word);
                self.gates[self.current].run_long(order, value)
            }
            Port::TakingWord(order) => {
                self.port = Port::Idle;
                self.gates[self.current].run_word(order, word)
            }
            Port::TakingGates => {
                self.port = Port::Idle;
                self.multi_update(word)
            }
            Port::Idle | Port::GivingTwo(_) | Port::GivingOne(_) => Err(Refusal::NotTaking),
        }
    }

    fn multi_update(&mut self, gates: u16) -> Result<(), Refusal> {
        if gates > 3 {
            return Err(Refusal::OutOfRange);
        }
        for (bit, gate) in self.gates.iter_mut().enumerate() {
            if gates >> bit & 1 == 1 {
                gate.latch();
            }
        }
        Ok(())
    }

    pub fn read(&mut self) -> Result<u16, Refusal> {
        match self.port {
            Port::GivingTwo(value) => {
                self.port = Port::GivingOne(value as u16);
                Ok((value >> 16) as u16)
            }
            Port::GivingOne(word) => {
                self.port = Port::Idle;
                Ok(word)
            }
            _ => Err(Refusal::NotGiving),
        }
    }

    pub fn cycle(&mut self, [input_one, input_two]: [Input; 2]) {
        let [one, two] = &mut self.gates;
        one.cycle(input_one);
        two.cycle(input_two);
        self.shown = [one, two].map(|gate| gate.phases().map(|x| cut(STEP, x)));
    }

    pub fn reset(&mut self) {
        self.gates.iter_mut().for_each(Gate::reset);
        self.current = 0;
        self.port = Port::Idle;
        self.shown = [[0; 2]; 2];
    }

    /// Marks the slip of the lowest-numbered gate that calls and has none out, and says which
    /// gate (0 or 1) that is.
    pub fn take(&mut self) -> Result<usize, Refusal> {
        let lends = |gate: &Gate| gate.calls() && !gate.slip_out;
        let gate = self.gates.iter().position(lends).ok_or(Refusal::NoCall)?;
        self.gates[gate].slip_out = true;
        Ok(gate)
    }

    /// Closes a slip of a gate (0 or 1); the events whose places hold 0 in `keep` are cleared.
    pub fn close(&mut self, gate: usize, keep: u16) -> Result<(), Refusal> {
        let gate = &mut self.gates[gate];
        if !gate.slip_out {
            return Err(Refusal::NoSlip);
        }
        gate.clear_events(keep);
        gate.slip_out = false;
        Ok(())
    }

    /// Lists the new events of a gate (1 or 2).
    pub fn collect(&mut self, gate: u8, list: &mut EventList) -> Result<(), Refusal> {
        match gate {
            1 => self.gates[0].collect(gate, list),
            2 => self.gates[1].collect(gate, list),
            _ => Err(Refusal::OutOfRange),
        }
    }
}
