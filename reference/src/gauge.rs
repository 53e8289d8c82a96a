//! The gauge as a value, and opening (paper 01, "Opening and host bytes").

use crate::configuration::Configuration;
use crate::leak::{self, GRAINS_PER_COUNT, GREATEST_DRAIN};

// Bits of FLAGS (paper 01, "Registers").
pub const CHGS: u8 = 0x80;
pub const CI: u8 = 0x10;
pub const VDQ: u8 = 0x04;
pub const EDV1: u8 = 0x02;
pub const EDVF: u8 = 0x01;

/// Bit 2 of MODE.
pub const INIT: u8 = 0x04;

/// The parts of a unit in which SI is kept (paper 02, A1).
pub const SIXTEENTHS: i32 = 16;

/// Where the count of rest windows stops (paper 02, A4 and A6): the greatest number of its four bytes.
pub const REST_COUNT_MAX: u32 = 4_294_967_295;

/// The fields of the saved gauge. IAV is not one of them: it is |c| always.
#[derive(Clone, Copy, Debug, PartialEq, Eq)]
pub struct Gauge {
    pub configuration: Configuration,
    /// Charge held, in grains.
    pub h: i64,
    /// Drain of the run, in grains; 0 without a run.
    pub dcr: i64,
    pub lmd: i32,
    /// Standby current in sixteenths of a unit (paper 02, A1); `si` is what the register shows.
    pub si_sixteenths: i32,
    /// The last counted current, positive charging; 0 after opening or a rest.
    pub c: i32,
    pub volt: i32,
    pub temp: i32,
    pub ar: i32,
    pub mode: u8,
    pub flags: u8,
    /// Rest windows since the last window with c not 0, since opening or a reset (paper 02, A4).
    pub rest_count: u32,
    /// Cycles, and what was discharged beyond them, in grains (paper 02, A5). The opened gauge has neither.
    pub cyct: i32,
    pub cycle_drain: i64,
}

impl Gauge {
    pub fn opened(configuration: Configuration) -> Gauge {
        Gauge {
            configuration,
            h: 0,
            dcr: 0,
            lmd: configuration.design_capacity(),
            si_sixteenths: SIXTEENTHS * configuration.s0(),
            c: 0,
            volt: 0,
            temp: 0,
            ar: 0,
            mode: configuration.opened_mode(),
            flags: CI,
            rest_count: 0,
            cyct: 0,
            cycle_drain: 0,
        }
    }

    pub fn nac(&self) -> i32 {
        leak::nac(self.h) as i32
    }

    pub fn iav(&self) -> i32 {
        self.c.abs()
    }

    /// SI as it is shown, in units: the ceiling of a sixteenth of what is kept (paper 02, A1).
    pub fn si(&self) -> i32 {
        (self.si_sixteenths + SIXTEENTHS - 1) / SIXTEENTHS
    }

    pub fn vdq(&self) -> bool {
        self.flags & VDQ != 0
    }

    /// LMD × G, the charge of a full cell.
    pub fn full_charge(&self) -> i64 {
        i64::from(self.lmd) * GRAINS_PER_COUNT
    }

    /// "VDQ cleared, DCR 0", wherever a rule says so.
    pub fn end_run(&mut self) {
        self.flags &= !VDQ;
        self.dcr = 0;
    }

    /// Full in step 3, and DONE: h = LMD × G, VDQ set, DCR 0, INIT cleared.
    pub fn fill(&mut self) {
        self.h = self.full_charge();
        self.flags |= VDQ;
        self.dcr = 0;
        self.mode &= !INIT;
    }

    /// The last sentence of step 2: a drain of exactly 65,535 × G keeps the run, one above it ends the run.
    pub fn end_run_that_passes(&mut self) {
        if self.dcr > GREATEST_DRAIN {
            self.end_run();
        }
    }

    /// h loses the leak; if VDQ is set, DCR gains it. The NAC is the one before the window.
    pub fn take_leak(&mut self, w: i64) {
        let leak = leak::leak(self.h, self.configuration.sd(), w);
        self.h -= leak;
        if self.vdq() {
            self.dcr += leak;
        }
    }
}
