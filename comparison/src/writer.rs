//! Writes a list of calls. It follows the history while writing, so that it can aim at what the rules turn on.

use crate::fields;
use crate::older;
use crate::random::Random;
use crate::step::Step;
use crate::trial::{Start, Trial};
use crate::values;
use reference::configuration::Configuration;
use reference::history::{Call, History};
use reference::leak::{leak, w, GRAINS_PER_COUNT, GRAINS_PER_UNIT};
use reference::refusal::{CURRENT_MAX, VOLTAGE_MAX, VOLTAGE_MIN};
use reference::{forms, saved};

/// One command in so many is previewed before its key is written.
const LOOK_EVERY: u64 = 3;

pub struct Writer {
    pub random: Random,
    pub configuration: Configuration,
    pub history: History,
    start: Start,
    steps: Vec<Step>,
}

impl Writer {
    pub fn new(mut random: Random) -> Writer {
        let bytes = values::configuration(&mut random);
        Writer::opened(random, bytes)
    }

    /// A list of a cell that leaks, most often as much as an SD allows.
    pub fn leaking(mut random: Random) -> Writer {
        let mut bytes = values::configuration(&mut random);
        bytes[4] = bytes[4] & 0xF0 | random.pick(&[1, 15, 15, 15]);
        Writer::opened(random, bytes)
    }

    fn opened(random: Random, bytes: [u8; 10]) -> Writer {
        let configuration = Configuration::new(&bytes).expect("ILMD above 0");
        let start = Start::Opened(bytes);
        Writer { random, configuration, history: History::opened(configuration), start, steps: Vec::new() }
    }

    /// A list that goes on from any gauge, handed in or, in an older form, converted first. A reference that refuses it is found when
    /// the trial begins.
    pub fn begun(mut random: Random) -> Writer {
        let newest = fields::valid(&mut random);
        let fields = if random.one_in(2) { newest } else { older::any(&mut random, &newest) };
        let (configuration, bytes) = (fields.meaning(), fields.bytes());
        let history = forms::load(&bytes).map_or_else(|_| History::opened(configuration), |gauge| History::begun(&gauge));
        let start = match fields.form {
            saved::FORM => Start::Saved { bytes, accepted: Some(true) },
            _ => Start::converted(bytes),
        };
        Writer { random, configuration, history, start, steps: Vec::new() }
    }

    pub fn trial(self) -> Trial {
        Trial { start: self.start, steps: self.steps }
    }

    pub fn call(&mut self, call: Call) {
        // A refused call stays in the list like any other.
        let _ = self.history.call(&call);
        self.steps.push(call.into());
    }

    /// The handset's firmware is updated, from the newest form in every second one.
    pub fn update(&mut self) {
        let form = self.random.pick(&[1, 2, 3, 4, saved::FORM, saved::FORM, saved::FORM, saved::FORM]);
        self.update_from(form);
    }

    /// The handset's firmware is updated from a form. The history goes on as if nothing had been, but for what the form lacks.
    pub fn update_from(&mut self, form: u8) {
        older::forget(form, &mut self.history);
        self.steps.push(Step::Update { form });
    }

    pub fn window(&mut self, current: i32, voltage: i32, temperature: i32) {
        self.call(Call::Window { current, voltage, temperature });
    }

    pub fn write(&mut self, address: u32, value: u8) {
        self.call(Call::Write { address, value });
    }

    /// A whole command of the host: AR, MODE and the key. Now and then the host looks before it writes the key (paper 02, A2).
    pub fn command(&mut self, ar: Option<i64>, mode: u8, key: u8) {
        self.prepare(ar, mode);
        if self.random.one_in(LOOK_EVERY) {
            self.preview(key);
        }
        self.write(0x00, key);
    }

    /// What a command or its preview needs before the key.
    pub fn prepare(&mut self, ar: Option<i64>, mode: u8) {
        if let Some(ar) = ar {
            let [low, high] = (ar.clamp(0, 65_535) as u16).to_le_bytes();
            self.write(0x02, low);
            self.write(0x03, high);
        }
        self.write(0x01, mode);
    }

    pub fn preview(&mut self, key: u8) {
        let reply_length = values::preview_length(&mut self.random);
        self.call(Call::Preview { key, reply_length });
    }

    pub fn rest(&mut self, windows: i64, temperature: i32) {
        self.call(Call::Rest { windows: windows as u32, temperature });
    }

    pub fn estimate(&mut self, voltage: i32) {
        self.call(Call::Estimate { voltage });
    }

    /// A run starts, by DONE or by a charge that tapers off.
    pub fn start_run(&mut self) {
        let taper = 2 * self.configuration.taper();
        if taper > self.configuration.dmf() && self.random.one_in(2) {
            let current = self.random.range(i64::from(self.configuration.dmf()) + 1, i64::from(taper)) as i32;
            let voltage = self.random.range(4_100, 4_500) as i32;
            let temperature = self.temperature();
            self.window(current, voltage, temperature);
        } else {
            self.command(None, 0x10, 0xA9);
        }
    }

    pub fn temperature(&mut self) -> i32 {
        values::temperature(&mut self.random, &self.configuration)
    }

    /// A discharge above 2 × S0, as a positive amount.
    pub fn heavy(&mut self) -> i32 {
        let least = self.configuration.standby_limit().max(self.configuration.dmf()) + 1;
        let more = self.random.amount(i64::from(CURRENT_MAX - least)) as i32;
        least + more
    }

    /// A voltage above E1, where a discharge only counts.
    pub fn voltage_above_e1(&mut self) -> i32 {
        let least = (self.configuration.e1() + 1).max(VOLTAGE_MIN);
        self.random.range(i64::from(least), i64::from(VOLTAGE_MAX)) as i32
    }

    /// A voltage at which step 4 asks for E1 and not for EDVF, where the configuration has one in range.
    pub fn voltage_at_e1(&mut self) -> i32 {
        let least = (self.configuration.edvf() + 1).max(VOLTAGE_MIN);
        let greatest = self.configuration.e1().max(VOLTAGE_MIN);
        match self.random.below(3) {
            0 => least,
            1 => greatest,
            _ => self.random.range(i64::from(least), i64::from(greatest)) as i32,
        }
    }

    /// The amount of charging current that just reaches a full charge in the next window at t.
    pub fn charge_to_full(&self, t: i32) -> i64 {
        let full = i64::from(self.history.l) * GRAINS_PER_COUNT;
        let missing = full - self.history.h() + leak(self.history.h(), self.configuration.sd(), w(t));
        (missing + GRAINS_PER_UNIT - 1) / GRAINS_PER_UNIT
    }

    /// The amount of discharging current that just completes a cycle in the next window; 0 where the drain has a whole one already.
    pub fn discharge_to_cycle(&self) -> i64 {
        let missing = i64::from(self.history.l) * GRAINS_PER_COUNT - self.history.cycle_drain;
        ((missing + GRAINS_PER_UNIT - 1) / GRAINS_PER_UNIT).max(0)
    }

    /// The amount of discharging current that just empties the cell in the next window at t.
    pub fn discharge_to_empty(&self, t: i32) -> i64 {
        let held = self.history.h() - leak(self.history.h(), self.configuration.sd(), w(t));
        (held + GRAINS_PER_UNIT - 1) / GRAINS_PER_UNIT
    }
}
