//! What the age of a cell does to the registers (paper 02, A5). This only counts: no comparison rests on it.

use crate::counts::Counts;
use crate::table::ageing::Event;
use crate::table::Part;
use reference::compensation::{artte, cac, dcmp, fcac, tte};
use reference::cycles::CYCLES_AN_AGE_STEP;
use reference::gauge::Gauge;
use reference::saved;

/// The greatest first term of DCMP: I 65,535, DCGN and TCGN 31, CYCT 65,520 or more, GAF 3, TOFF 7 and −20 °C.
const GREATEST_TERM: i64 = 2_689_602_566_261_820;

/// Counts what the registers show of the age after a call that was not refused, by the CYCT before it and the bytes after it.
pub fn count(counts: &mut Counts, part: Part, cycles_before: i32, bytes: &[u8]) {
    let gauge = match saved::load(bytes) {
        Ok(gauge) if gauge.cyct >= CYCLES_AN_AGE_STEP => gauge,
        _ => return,
    };
    let young = Gauge { cyct: 0, ..gauge };
    counts.add_if(part, Event::AgedArtte, artte(&gauge) != artte(&young));
    counts.add_if(part, Event::AgedGreatest, first_factor(&gauge) * i64::from(gauge.ar) == GREATEST_TERM);
    counts.add_if(part, Event::AgedIn32Bits, would_show(&gauge, 32));
    counts.add_if(part, Event::AgedIn51Bits, would_show(&gauge, 51));
    if gauge.c < 0 {
        counts.add_if(part, Event::AgedCac, cac(&gauge) != cac(&young));
        counts.add_if(part, Event::AgedFcac, fcac(&gauge) != fcac(&young));
        counts.add_if(part, Event::AgedTte, tte(&gauge) != tte(&young));
        counts.add_if(part, Event::AgedCacToZero, cac(&gauge) == 0 && cac(&young) > 0);
        counts.add_if(part, Event::AgedFcacToZero, fcac(&gauge) == 0 && fcac(&young) > 0);
        let shown = Shown { gauge: &gauge, i: i64::from(gauge.iav()) };
        configurations(counts, part, &shown, dcmp(&young, gauge.iav()));
        readings(counts, part, &shown, cycles_before);
    }
}

/// Quotient × GAF.
fn age(gauge: &Gauge) -> i64 {
    i64::from(gauge.cyct / CYCLES_AN_AGE_STEP) * gauge.configuration.gaf()
}

/// 128 + TCGN × dt.
fn slope(gauge: &Gauge) -> i64 {
    let below = match gauge.temp {
        0 => 0,
        temp => (gauge.configuration.cold_limit() - temp).max(0),
    };
    128 + gauge.configuration.tcgn() * i64::from(below)
}

/// 4,096 × DCOFF × ILMD.
fn offset(gauge: &Gauge) -> i64 {
    4_096 * gauge.configuration.dcoff() * i64::from(gauge.configuration.ilmd())
}

/// What I is multiplied by in the first term of DCMP.
pub fn first_factor(gauge: &Gauge) -> i64 {
    gauge.configuration.dcgn() * (32 + gauge.configuration.tcgn() * age(gauge)) * slope(gauge)
}

/// Whether a first term cut to so many bits would show in ARTTE.
fn would_show(gauge: &Gauge, bits: u32) -> bool {
    let term = first_factor(gauge) * i64::from(gauge.ar);
    let dividend = (term & ((1 << bits) - 1)) - 32 * gauge.configuration.dcgn() * offset(gauge);
    let d = (dividend.max(0) + (1 << 20) - 1) >> 20;
    let counts = (i64::from(gauge.nac()) - d).max(0);
    term >> bits > 0 && (60 * counts / i64::from(gauge.ar)).min(65_535) != artte(gauge)
}

/// A discharging gauge, whose D is DCMP(I).
struct Shown<'a> {
    gauge: &'a Gauge,
    i: i64,
}

impl Shown<'_> {
    /// Whether FCAC shows that D is not this one.
    fn differs(&self, other: i64) -> bool {
        let lmd = i64::from(self.gauge.lmd);
        dcmp(self.gauge, self.gauge.iav()).min(lmd) != other.min(lmd)
    }

    /// D with another gain, which is DCGN aged, in so many parts, and an offset multiplied by another one.
    fn by(&self, gain: i64, offset_gain: i64, parts: i64) -> i64 {
        let dividend = self.i * gain * slope(self.gauge) - offset(self.gauge) * offset_gain;
        let denominator = 32_768 * parts;
        (dividend.max(0) + denominator - 1) / denominator
    }

    /// D with another quotient × GAF.
    fn aged_by(&self, age: i64) -> i64 {
        let dcgn = self.gauge.configuration.dcgn();
        self.by(dcgn * (32 + self.gauge.configuration.tcgn() * age), 32 * dcgn, 32)
    }
}

/// The configurations with which the age shows, the unaged D being another one.
fn configurations(counts: &mut Counts, part: Part, shown: &Shown, unaged: i64) {
    let gauge = shown.gauge;
    let configuration = &gauge.configuration;
    let is_shown = shown.differs(unaged);
    let event = match configuration.gaf() {
        0 => Event::AgedGaf0,
        1 => Event::AgedGaf1,
        2 => Event::AgedGaf2,
        _ => Event::AgedGaf3,
    };
    let would_show = shown.differs(shown.aged_by(i64::from(gauge.cyct / CYCLES_AN_AGE_STEP)));
    counts.add_if(part, event, if configuration.gaf() == 0 { would_show } else { is_shown });
    let fixed = configuration.bytes[6] & 0x02 != 0 && configuration.bytes[8] != 0x6C;
    counts.add_if(part, Event::AgedFixedDcomp, is_shown && fixed);
    counts.add_if(part, Event::AgedCold, is_shown && slope(gauge) > 128);
    counts.add_if(part, Event::AgedUnmeasured, is_shown && gauge.temp == 0);
}

/// Other readings of the rule that would show another D.
fn readings(counts: &mut Counts, part: Part, shown: &Shown, cycles_before: i32) {
    let gauge = shown.gauge;
    let (dcgn, tcgn, gaf) = (gauge.configuration.dcgn(), gauge.configuration.tcgn(), gauge.configuration.gaf());
    let aged = dcgn * (32 + tcgn * age(gauge));
    counts.add_if(part, Event::AgedFloored, shown.differs(shown.by(aged / 32, dcgn, 1)));
    counts.add_if(part, Event::AgedCeiled, shown.differs(shown.by((aged + 31) / 32, dcgn, 1)));
    counts.add_if(part, Event::AgedOffset, shown.differs(shown.by(aged, aged, 32)));
    let unfloored = dcgn * (512 + tcgn * i64::from(gauge.cyct) * gaf);
    counts.add_if(part, Event::AgedQuotient, shown.differs(shown.by(unfloored, 512 * dcgn, 512)));
    let quotient = i64::from(gauge.cyct / CYCLES_AN_AGE_STEP);
    let id3 = i64::from(gauge.configuration.bytes[7]);
    counts.add_if(part, Event::AgedHighBits, shown.differs(shown.aged_by(quotient * (id3 >> 6))));
    counts.add_if(part, Event::AgedAllBits, shown.differs(shown.aged_by(quotient * id3)));
    let before = Gauge { cyct: cycles_before, ..*gauge };
    counts.add_if(part, Event::AgeStep, shown.differs(dcmp(&before, gauge.iav())));
}
