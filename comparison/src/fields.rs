//! The fields of saved bytes, valid ones at random over all that is accepted, reachable by a list or not.

use crate::older::{LENGTH_3, LENGTH_4};
use crate::random::Random;
use crate::values;
use reference::configuration::Configuration;
use reference::cycles::CYCLE_DRAIN_LIMIT;
use reference::leak::{GRAINS_PER_COUNT, GREATEST_DRAIN};
use reference::refusal::CURRENT_MAX;
use reference::saved;

pub const CHGS: u8 = 0x80;
pub const VDQ: u8 = 0x04;

/// CYCT and the cycle drain (paper 02, A5).
#[derive(Clone, Copy, Default)]
pub struct Cycles {
    pub cyct: u16,
    pub drain: u64,
}

/// The count of rest windows as a form stores it: in two bytes, and since form 5 in four (paper 02, A4 and A6).
#[derive(Clone, Copy)]
pub enum RestCount {
    TwoBytes(u16),
    FourBytes(u32),
}

impl RestCount {
    pub fn windows(self) -> u32 {
        match self {
            RestCount::TwoBytes(windows) => u32::from(windows),
            RestCount::FourBytes(windows) => windows,
        }
    }

    fn bytes(self) -> Vec<u8> {
        match self {
            RestCount::TwoBytes(windows) => windows.to_le_bytes().to_vec(),
            RestCount::FourBytes(windows) => windows.to_le_bytes().to_vec(),
        }
    }
}

/// The saved gauge field by field, without any condition. SI is the stored number, whose unit is the form's own. A field that the form
/// lacks is none.
#[derive(Clone)]
pub struct Fields {
    pub form: u8,
    pub configuration: [u8; 10],
    pub h: u64,
    pub dcr: u64,
    pub lmd: u16,
    pub si: u16,
    pub c: i16,
    pub volt: u16,
    pub temp: u16,
    pub ar: u16,
    pub mode: u8,
    pub flags: u8,
    pub rest_count: Option<RestCount>,
    pub cycles: Option<Cycles>,
}

impl Fields {
    /// The 41 bytes in the order of paper 01, "Saved gauge", low byte first, and then what later forms append (paper 02, A4, A5 and A6).
    /// Forms 1 and 2 differ in what SI means alone.
    pub fn bytes(&self) -> Vec<u8> {
        let mut bytes = vec![self.form];
        bytes.extend(self.configuration);
        bytes.extend(self.h.to_le_bytes());
        bytes.extend(self.dcr.to_le_bytes());
        bytes.extend(self.lmd.to_le_bytes());
        bytes.extend(self.si.to_le_bytes());
        bytes.extend(self.c.to_le_bytes());
        bytes.extend(self.volt.to_le_bytes());
        bytes.extend(self.temp.to_le_bytes());
        bytes.extend(self.ar.to_le_bytes());
        bytes.extend([self.mode, self.flags]);
        bytes.extend(self.rest_count.iter().flat_map(|count| count.bytes()));
        if let Some(cycles) = self.cycles {
            bytes.extend(cycles.cyct.to_le_bytes());
            bytes.extend(cycles.drain.to_le_bytes());
        }
        bytes
    }

    /// The fields of bytes that have the length of a form, whatever form their number says.
    pub fn of(bytes: &[u8]) -> Fields {
        let pair = |at: usize| u16::from_le_bytes([bytes[at], bytes[at + 1]]);
        let eight = |at: usize| u64::from_le_bytes(bytes[at..at + 8].try_into().expect("eight bytes"));
        let narrow = || RestCount::TwoBytes(pair(41));
        let wide = || RestCount::FourBytes(u32::from(pair(41)) | u32::from(pair(43)) << 16);
        let cycles_at = |at: usize| Cycles { cyct: pair(at), drain: eight(at + 2) };
        let (rest_count, cycles) = match bytes.len() {
            saved::LENGTH => (Some(wide()), Some(cycles_at(45))),
            LENGTH_4 => (Some(narrow()), Some(cycles_at(43))),
            LENGTH_3 => (Some(narrow()), None),
            _ => (None, None),
        };
        Fields {
            form: bytes[0],
            configuration: bytes[1..11].try_into().expect("ten bytes"),
            h: eight(11),
            dcr: eight(19),
            lmd: pair(27),
            si: si(bytes),
            c: pair(31) as i16,
            volt: pair(33),
            temp: pair(35),
            ar: pair(37),
            mode: bytes[39],
            flags: bytes[40],
            rest_count,
            cycles,
        }
    }

    pub fn meaning(&self) -> Configuration {
        Configuration { bytes: self.configuration }
    }

    /// The greatest SI that the form accepts: 2 × S0 in form 1, 32 × S0 in sixteenths (paper 02, A1).
    pub fn greatest_si(&self) -> u16 {
        let units = self.meaning().standby_limit() as u16;
        if self.form == 1 {
            units
        } else {
            16 * units
        }
    }

    pub fn full_charge(&self) -> i64 {
        i64::from(self.lmd) * GRAINS_PER_COUNT
    }

    pub fn has_run(&self) -> bool {
        self.flags & VDQ != 0
    }

    /// Sets VDQ and a drain, held within what is accepted.
    pub fn set_run(&mut self, dcr: i64) {
        self.flags |= VDQ;
        self.dcr = dcr.clamp(0, GREATEST_DRAIN) as u64;
    }

    /// Sets the count of the newest form.
    pub fn set_rest_count(&mut self, windows: u32) {
        self.rest_count = Some(RestCount::FourBytes(windows));
    }

    /// Sets the cycles, the drain held within what is accepted.
    pub fn set_cycles(&mut self, cyct: u16, drain: i64) {
        self.cycles = Some(Cycles { cyct, drain: drain.clamp(0, CYCLE_DRAIN_LIMIT - 1) as u64 });
    }

    /// Sets the charge, held within what is accepted.
    pub fn set_charge(&mut self, h: i64) {
        self.h = h.clamp(0, self.full_charge()) as u64;
    }
}

/// SI as it is stored.
pub fn si(bytes: &[u8]) -> u16 {
    u16::from_le_bytes([bytes[29], bytes[30]])
}

/// Fields that are accepted, of the newest form.
pub fn valid(random: &mut Random) -> Fields {
    let configuration = values::configuration(random);
    let meaning = Configuration { bytes: configuration };
    let lmd = match random.below(4) {
        0 => random.pick(&[1, 2, 7, 8, 15, 16, 17, 32_768, 65_534, 65_535]),
        1 => meaning.design_capacity() as u16,
        _ => 1 + random.amount(65_534) as u16,
    };
    let c = counted(random, &meaning);
    let flags = random.byte() & 0x17 | if c > 0 { CHGS } else { 0 };
    let mut fields = Fields {
        form: saved::FORM,
        configuration,
        h: 0,
        dcr: 0,
        lmd,
        si: 0,
        c: c as i16,
        volt: if random.one_in(5) { 0 } else { values::voltage(random, &meaning) as u16 },
        temp: if random.one_in(5) { 0 } else { values::temperature(random, &meaning) as u16 },
        ar: random.amount(65_535) as u16,
        mode: random.byte(),
        flags,
        rest_count: Some(RestCount::FourBytes(values::rest_count(random))),
        cycles: None,
    };
    fields.si = standby(random, fields.greatest_si());
    fields.set_cycles(values::cyct(random), values::cycle_drain(random, fields.full_charge()));
    charge(random, &mut fields);
    if fields.has_run() {
        drain(random, &mut fields);
    }
    fields
}

/// 0, or a current beyond DMF.
fn counted(random: &mut Random, configuration: &Configuration) -> i32 {
    let least = configuration.dmf() + 1;
    let amount = match random.below(4) {
        0 => least,
        1 => CURRENT_MAX,
        _ => least + random.amount(i64::from(CURRENT_MAX - least)) as i32,
    };
    random.pick(&[0, amount, -amount, -amount])
}

/// SI up to the greatest, now and then in whole units.
fn standby(random: &mut Random, greatest: u16) -> u16 {
    let any = random.range(0, i64::from(greatest)) as u16;
    match random.below(8) {
        0 => 0,
        1 | 2 => greatest,
        3 => any / 16 * 16,
        _ => any,
    }
}

fn charge(random: &mut Random, fields: &mut Fields) {
    let full = fields.full_charge();
    let counts = random.range(0, i64::from(fields.lmd)) * GRAINS_PER_COUNT;
    let h = match random.below(6) {
        0 => 0,
        1 => full,
        2 => counts + random.range(-1, 1),
        3 => random.amount(full),
        _ => random.range(0, full),
    };
    fields.set_charge(h);
}

fn drain(random: &mut Random, fields: &mut Fields) {
    let dcr = match random.below(5) {
        0 => 0,
        1 => GREATEST_DRAIN,
        2 => GREATEST_DRAIN - random.amount(GRAINS_PER_COUNT * 40),
        3 => random.amount(GREATEST_DRAIN),
        _ => random.range(0, 9 * fields.full_charge() / 8),
    };
    fields.set_run(dcr);
}
