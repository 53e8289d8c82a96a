//! Which events a write of the host is, or a read (paper 01, "Opening and host bytes"). This only counts: no comparison rests on it.

use crate::counts::Counts;
use crate::cycles;
use crate::events::Standing;
use crate::rest_counts;
use crate::table::host::Event;
use crate::table::Part;
use reference::command::{self, Command};
use reference::leak::GRAINS_PER_COUNT;

/// Counts a read that was not refused.
pub fn read(counts: &mut Counts, part: Part, before: &Standing, address: u32, count: u32) {
    counts.add_if(part, Event::ReadAll, count == 128);
    let end = address + count;
    let within = |at: u32| at % 2 == 1 && (0x03..0x1E).contains(&at) && at != 0x0B;
    counts.add_if(part, Event::ReadHalf, within(address) || within(end));
    let of_cyct = before.cycles > 0 && (address == 0x2B || end == 0x2B);
    counts.add_if(part, Event::ReadHalfCyct, of_cyct);
}

/// Counts a write that was not refused.
pub fn write(counts: &mut Counts, part: Part, before: &Standing, address: u32, value: u8) {
    counts.add_if(part, Event::WriteMode, address == command::MODE);
    counts.add_if(part, Event::WriteArLow, address == command::AR_LOW);
    counts.add_if(part, Event::WriteArHigh, address == command::AR_HIGH);
    if address == command::CTRL {
        if let Ok(picked) = command::decide(value, before.mode, before.ar) {
            carried_out(counts, part, before, picked);
        }
    }
}

fn carried_out(counts: &mut Counts, part: Part, before: &Standing, picked: Command) {
    let event = match picked {
        Command::Wrtnac => Event::Wrtnac,
        Command::Done => Event::Done,
        Command::Prst => Event::Prst,
        Command::Frst => Event::Frst,
        Command::Wrtlmd => Event::Wrtlmd,
    };
    counts.add(part, event);
    counts.add_if(part, Event::WrtnacAboveLmd, picked == Command::Wrtnac && before.ar > before.lmd);
    let cuts = picked == Command::Wrtlmd && before.h > i64::from(before.ar) * GRAINS_PER_COUNT;
    counts.add_if(part, Event::WrtlmdCuts, cuts);
    let resets = matches!(picked, Command::Prst | Command::Frst);
    counts.add_if(part, Event::ResetOfStandby, resets && before.si_sixteenths != 16 * before.configuration.s0());
    rest_counts::command(counts, part, before, picked);
    cycles::command(counts, part, before, picked);
}
