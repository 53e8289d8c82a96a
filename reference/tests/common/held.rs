//! Lists of calls, held to demand 3 after every call.

use reference::fixing::FixingPoint;
use reference::saved;
use reference::trace::Trace;

/// A trace that asserts after every call what demand 3 says of the gauge and the history.
pub struct Held(pub Trace);

impl Held {
    pub fn open(configuration: &[u8]) -> Held {
        Held(Trace::open(configuration).unwrap())
    }

    pub fn load(saved: &[u8]) -> Held {
        Held(Trace::load(saved).unwrap())
    }

    fn agree(&self) {
        let gauge = saved::load(self.0.saved()).unwrap();
        let history = self.0.history();
        assert_eq!((gauge.h, gauge.lmd, gauge.dcr), (history.h(), history.l, history.r()));
        assert_eq!((gauge.vdq(), gauge.ar), (history.run.is_some(), history.ar));
        assert_eq!(gauge.rest_count, history.rest_count());
        assert_eq!((gauge.cyct, gauge.cycle_drain), (history.cycles, history.cycle_drain));
        assert_eq!(gauge.mode & 0x3B, history.mode & 0x3B);
    }

    pub fn window(&mut self, current: i32, voltage: i32, temperature: i32) -> Vec<FixingPoint> {
        let points = self.0.window(current, voltage, temperature).unwrap();
        self.agree();
        points.iter().collect()
    }

    pub fn rest(&mut self, windows: u32, temperature: i32) {
        self.0.rest(windows, temperature).unwrap();
        self.agree();
    }

    pub fn write(&mut self, address: u32, value: u8) -> Vec<FixingPoint> {
        let points = self.0.write(address, value).unwrap();
        self.agree();
        points.iter().collect()
    }

    pub fn command(&mut self, ar: u16, mode: u8, key: u8) -> Vec<FixingPoint> {
        self.write(0x02, ar as u8);
        self.write(0x03, (ar >> 8) as u8);
        self.write(0x01, mode);
        self.write(0x00, key)
    }
}
