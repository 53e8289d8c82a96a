//! Which events of the standby current a window is (paper 02, A1). This only counts: no comparison rests on it.

use crate::counts::Counts;
use crate::events::Standing;
use crate::table::windows::Event;
use crate::table::Part;

/// Counts the events of step 5 for a window of counted current c that was not refused.
pub fn count(counts: &mut Counts, part: Part, before: &Standing, after: &Standing, c: i32) {
    let limit = before.configuration.standby_limit();
    counts.add_if(part, Event::StandbyWithoutS0, c < 0 && limit == 0);
    if c >= 0 || -c > limit {
        return;
    }
    counts.add(part, Event::Standby);
    let si = before.si_sixteenths;
    match after.si_sixteenths - si {
        0 => {
            counts.add_if(part, Event::StandbySettledBelow, si == -16 * c - 15);
            counts.add_if(part, Event::StandbySettledAbove, si == -16 * c);
            counts.add_if(part, Event::StandbyGreatest, si == 16 * limit);
        }
        1..=15 => counts.add(part, Event::StandbyRises),
        -15..=-1 => counts.add(part, Event::StandbyFalls),
        _ => {}
    }
}
