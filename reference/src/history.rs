//! The history of demand 3 (paper 01, "Fixing points of demand 3"), the count of rest windows and the cycles (paper 02, A4 to A6).
//!
//! It is fed the opened configuration and the calls' arguments and takes nothing from the gauge. It shares with the gauge only the
//! rules that are about numbers alone: leak, full test, what a run teaches, which command a key picks, which refusal arguments give.
//! A list that begins with a loaded gauge has no opening in it; its history begins at that gauge.

use crate::command::{self, Command};
use crate::configuration::Configuration;
use crate::cycles::CYCLES_MAX;
use crate::fixing::{FixingPoint, FixingPoints};
use crate::gauge::{Gauge, REST_COUNT_MAX};
use crate::leak::{self, GRAINS_PER_COUNT, GRAINS_PER_UNIT, GREATEST_DRAIN};
use crate::learning;
use crate::refusal;
use crate::window::is_full;

/// A call of a list, with its arguments. Of a reply only the length matters here. A preview, of a key at CTRL, may stand anywhere in a
/// list and moves nothing (paper 02, A2); so may an estimate (A4).
#[derive(Clone, Copy, Debug, PartialEq, Eq)]
pub enum Call {
    Window { current: i32, voltage: i32, temperature: i32 },
    Rest { windows: u32, temperature: i32 },
    Write { address: u32, value: u8 },
    Read { address: u32, count: u32, reply_length: usize, place: u32 },
    Preview { key: u8, reply_length: usize },
    Estimate { voltage: i32 },
}

/// What the history keeps. The sums have no greatest value, so they are wider than any charge.
#[derive(Clone, Copy, Debug, PartialEq, Eq)]
pub struct History {
    pub configuration: Configuration,
    /// Charge at the last fixing point, in grains.
    pub p: i64,
    /// Sum since then of counted currents.
    pub q: i128,
    /// Sum since then of leaks.
    pub k: i128,
    /// Learned capacity, in counts.
    pub l: i32,
    /// The drain R of a run, or no run.
    pub run: Option<i64>,
    pub mode: u8,
    pub ar: i32,
    /// Rest windows since the last window with c not 0, since opening or a reset, however many (paper 02, A4). `rest_count` is where
    /// they stop.
    pub rest_windows: u64,
    /// Cycles, at most 65,535, and the discharge in grains that no cycle has taken yet (paper 02, A5).
    pub cycles: i32,
    pub cycle_drain: i64,
}

impl History {
    /// The start: the opening is the first fixing point.
    pub fn opened(configuration: Configuration) -> History {
        History {
            configuration,
            p: 0,
            q: 0,
            k: 0,
            l: configuration.design_capacity(),
            run: None,
            mode: configuration.opened_mode(),
            ar: 0,
            rest_windows: 0,
            cycles: 0,
            cycle_drain: 0,
        }
    }

    /// The start at a gauge that was loaded from saved bytes, which paper 01 does not have: what the calls before it left is taken from
    /// that gauge, and nothing after. At an opened gauge it is `opened`, which takes nothing from the gauge. A handset updated
    /// mid-drive (paper 02, A1) goes on with the history that begins at what its older bytes held.
    pub fn begun(gauge: &Gauge) -> History {
        History {
            configuration: gauge.configuration,
            p: gauge.h,
            q: 0,
            k: 0,
            l: gauge.lmd,
            run: gauge.vdq().then_some(gauge.dcr),
            mode: gauge.mode,
            ar: gauge.ar,
            rest_windows: u64::from(gauge.rest_count),
            cycles: gauge.cyct,
            cycle_drain: gauge.cycle_drain,
        }
    }

    /// H = P + 192,000 × Q − K. Within a window it can be below 0; it always fits, as Q and K cancel to a charge of the cell.
    pub fn h(&self) -> i64 {
        let sum = i128::from(self.p) + i128::from(GRAINS_PER_UNIT) * self.q - self.k;
        i64::try_from(sum).expect("H is a charge of the cell, or one window's current below it")
    }

    /// DCR as demand 3 has it: R, or 0 without a run.
    pub fn r(&self) -> i64 {
        self.run.unwrap_or(0)
    }

    /// The count of rest windows as a gauge has it: at most 4,294,967,295 (paper 02, A6).
    pub fn rest_count(&self) -> u32 {
        self.rest_windows.min(u64::from(REST_COUNT_MAX)) as u32
    }

    fn fix(&mut self, charge: i64) {
        self.p = charge;
        self.q = 0;
        self.k = 0;
    }

    fn full_charge(&self) -> i64 {
        i64::from(self.l) * GRAINS_PER_COUNT
    }

    /// The number with which a call would be refused, by its arguments and the MODE, AR and count of rest windows kept here. 14 never
    /// arises.
    pub fn refused(&self, call: &Call) -> Result<(), u32> {
        match *call {
            Call::Window { current, voltage, temperature } => refusal::window(current, voltage, temperature),
            Call::Rest { windows, temperature } => refusal::rest(windows, temperature),
            Call::Write { address, value } => refusal::write(address, value, self.mode, self.ar),
            Call::Read { address, count, reply_length, place } => refusal::read(address, count, reply_length, place),
            Call::Preview { key, reply_length } => refusal::preview(key, self.mode, self.ar, reply_length).map(|_| ()),
            Call::Estimate { voltage } => refusal::estimate(self.rest_count(), voltage),
        }
    }

    /// Takes a call: the fixing points it makes, or the number with which it is refused, and then nothing changes.
    pub fn call(&mut self, call: &Call) -> Result<FixingPoints, u32> {
        self.refused(call)?;
        Ok(match *call {
            Call::Window { current, voltage, temperature } => self.window(current, voltage, temperature),
            Call::Rest { windows, temperature } => self.rest(windows, temperature),
            Call::Write { address, value } => self.write(address, value),
            Call::Read { .. } | Call::Preview { .. } | Call::Estimate { .. } => FixingPoints::default(),
        })
    }

    fn window(&mut self, a: i32, v: i32, t: i32) -> FixingPoints {
        let c = self.configuration.counted(a);
        let leak = leak::leak(self.h(), self.configuration.sd(), leak::w(t));
        self.k += i128::from(leak);
        self.q += i128::from(c);
        self.count_cycles(c);
        if c != 0 {
            self.rest_windows = 0;
        }
        if c > 0 {
            self.run = None;
        } else {
            self.drain(leak + GRAINS_PER_UNIT * i64::from(-c));
        }
        let mut points = FixingPoints::default();
        self.full_or_empty_stop(c, v, &mut points);
        self.end_of_discharge(c, v, t, &mut points);
        points
    }

    /// A window's discharge, and a cycle for each L × G that can be taken from what has come together, L being that before the window.
    /// A cycle that CYCT has no room for is taken like the others (paper 02, A5).
    fn count_cycles(&mut self, c: i32) {
        if c < 0 {
            self.cycle_drain += GRAINS_PER_UNIT * i64::from(-c);
        }
        while self.cycle_drain >= self.full_charge() {
            self.cycle_drain -= self.full_charge();
            self.cycles = (self.cycles + 1).min(CYCLES_MAX);
        }
    }

    /// A run's R gains a drain, and the run ends if R is above 65,535 × G.
    fn drain(&mut self, grains: i64) {
        self.run = self.run.map(|r| r + grains).filter(|&r| r <= GREATEST_DRAIN);
    }

    fn full_or_empty_stop(&mut self, c: i32, v: i32, points: &mut FixingPoints) {
        let taper = self.configuration.taper();
        if is_full(c, v, taper, self.h(), self.full_charge()) {
            self.fix(self.full_charge());
            self.run = Some(0);
            points.insert(FixingPoint::Full);
        }
        if c < 0 && self.h() <= 0 {
            self.fix(0);
            points.insert(FixingPoint::EmptyStop);
        }
    }

    fn end_of_discharge(&mut self, c: i32, v: i32, t: i32, points: &mut FixingPoints) {
        if c < 0 && v <= self.configuration.edvf() {
            self.fix(0);
            self.run = None;
            points.insert(FixingPoint::EdvfWindow);
        } else if c < 0 && v <= self.configuration.e1() {
            let ended = self.run.take();
            let warm = t >= self.configuration.cold_limit();
            let heavy = -c > self.configuration.standby_limit();
            if let (Some(r), true, true) = (ended, warm, heavy) {
                self.l = learning::learned(r, self.l);
                self.fix(learning::charge_after(self.l));
                points.insert(FixingPoint::QualifiedRun);
            }
        }
    }

    fn rest(&mut self, windows: u32, t: i32) -> FixingPoints {
        let w = leak::w(t);
        for _ in 0..windows {
            let leak = leak::leak(self.h(), self.configuration.sd(), w);
            self.k += i128::from(leak);
            self.drain(leak);
            self.rest_windows += 1;
        }
        FixingPoints::default()
    }

    /// A write that is not refused.
    fn write(&mut self, address: u32, value: u8) -> FixingPoints {
        match address {
            command::MODE => self.mode = value,
            command::AR_LOW | command::AR_HIGH => self.ar = command::ar_with(self.ar, address, value),
            _ => {
                if let Ok(picked) = command::decide(value, self.mode, self.ar) {
                    return self.command(picked);
                }
            }
        }
        FixingPoints::default()
    }

    /// The bits of MODE are cleared after each command and by nothing else: INIT, which full and DONE clear in the gauge, stays here.
    fn command(&mut self, picked: Command) -> FixingPoints {
        let points = match picked {
            Command::Wrtnac => {
                self.fix(i64::from(self.ar.min(self.l)) * GRAINS_PER_COUNT);
                self.run = None;
                FixingPoints::of(FixingPoint::Wrtnac)
            }
            Command::Wrtlmd => {
                self.l = self.ar;
                self.fix(self.h().min(self.full_charge()));
                self.run = None;
                FixingPoints::of(FixingPoint::Wrtlmd)
            }
            Command::Done => {
                self.fix(self.full_charge());
                self.run = Some(0);
                FixingPoints::of(FixingPoint::Done)
            }
            Command::Frst => {
                *self = History::opened(self.configuration);
                FixingPoints::of(FixingPoint::Frst)
            }
            Command::Prst => {
                self.run = None;
                self.mode = self.configuration.opened_mode();
                self.ar = 0;
                self.rest_windows = 0;
                FixingPoints::default()
            }
        };
        self.mode &= !command::ALL_COMMAND_BITS;
        points
    }
}
