//! Which events a preview is (paper 02, A2). This only counts: no comparison rests on it.

use crate::counts::Counts;
use crate::events::Standing;
use crate::table::host::Event;
use crate::table::Part;
use reference::command::{self, Command};
use reference::refusal::{KEY, LMD_ZERO, NOT_CARRIED, NO_COMMAND, REGISTERS, REPLY, SAVED};

/// Counts a preview that was not refused, of a gauge as it stands.
pub fn count(counts: &mut Counts, part: Part, now: &Standing, key: u8) {
    counts.add_if(part, Event::PreviewWithRun, now.run.is_some());
    if let Ok(picked) = command::decide(key, now.mode, now.ar) {
        let event = match picked {
            Command::Wrtnac => Event::PreviewWrtnac,
            Command::Done => Event::PreviewDone,
            Command::Prst => Event::PreviewPrst,
            Command::Frst => Event::PreviewFrst,
            Command::Wrtlmd => Event::PreviewWrtlmd,
        };
        counts.add(part, event);
    }
}

/// Counts a preview that was refused with a number: 13 by the length of its reply, the others where the reply was wrong too.
pub fn refused(counts: &mut Counts, part: Part, reply_length: usize, number: u32) {
    let event = match (number, reply_length) {
        (REPLY, 0) => Event::PreviewEmpty,
        (REPLY, 127) => Event::PreviewShort,
        (REPLY, 129) => Event::PreviewLong,
        (KEY, _) => Event::PreviewKeyAndReply,
        (NO_COMMAND, _) => Event::PreviewNoCommandAndReply,
        (NOT_CARRIED, _) => Event::PreviewNotCarriedAndReply,
        (LMD_ZERO, _) => Event::PreviewLmdZeroAndReply,
        (SAVED, _) => Event::PreviewSavedAndReply,
        _ => return,
    };
    counts.add_if(part, event, reply_length != REGISTERS as usize);
}
