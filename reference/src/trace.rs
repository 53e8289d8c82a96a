//! A gauge and its history side by side, for tests and tools that run a list of calls.

use crate::calls;
use crate::configuration::Configuration;
use crate::fixing::FixingPoints;
use crate::forms;
use crate::gauge::Gauge;
use crate::history::{Call, History};
use crate::saved;

/// The saved bytes of a gauge with the history of the calls made on it.
#[derive(Clone, Copy, Debug)]
pub struct Trace {
    saved: [u8; saved::LENGTH],
    history: History,
}

impl Trace {
    /// Opens a gauge, or the number 1 or 2. The opening is its first fixing point.
    pub fn open(configuration: &[u8]) -> Result<Trace, u32> {
        let configuration = Configuration::new(configuration)?;
        Ok(Trace::new(&Gauge::opened(configuration), History::opened(configuration)))
    }

    /// Takes saved bytes of any form, or the number 14. The history begins there.
    pub fn load(saved: &[u8]) -> Result<Trace, u32> {
        let gauge = forms::load(saved)?;
        Ok(Trace::new(&gauge, History::begun(&gauge)))
    }

    fn new(gauge: &Gauge, history: History) -> Trace {
        let mut saved = [0; saved::LENGTH];
        saved::store(gauge, &mut saved);
        Trace { saved, history }
    }

    /// Makes a call on the gauge and the history: the fixing points that the history finds in it. A refusal is its number and changes
    /// neither. A read, a preview or an estimate moves nothing; what it gives is had from the saved bytes.
    pub fn call(&mut self, call: &Call) -> Result<FixingPoints, u32> {
        let answer = match *call {
            Call::Window { current, voltage, temperature } => calls::window(&mut self.saved, current, voltage, temperature),
            Call::Rest { windows, temperature } => calls::rest(&mut self.saved, windows, temperature),
            Call::Write { address, value } => calls::write(&mut self.saved, address, value),
            Call::Read { .. } | Call::Preview { .. } | Call::Estimate { .. } => 0,
        };
        if answer != 0 {
            return Err(answer);
        }
        self.history.call(call)
    }

    pub fn window(&mut self, current: i32, voltage: i32, temperature: i32) -> Result<FixingPoints, u32> {
        self.call(&Call::Window { current, voltage, temperature })
    }

    pub fn rest(&mut self, windows: u32, temperature: i32) -> Result<FixingPoints, u32> {
        self.call(&Call::Rest { windows, temperature })
    }

    pub fn write(&mut self, address: u32, value: u8) -> Result<FixingPoints, u32> {
        self.call(&Call::Write { address, value })
    }

    /// The bytes, for `calls::read`, `calls::preview` and `calls::estimate`.
    pub fn saved(&self) -> &[u8; saved::LENGTH] {
        &self.saved
    }

    pub fn history(&self) -> &History {
        &self.history
    }
}
