//! What a gauge has from the older forms that it was converted from. This only serves to count events.

use reference::fixing::{FixingPoint, FixingPoints};
use reference::history::History;
use reference::saved;

#[derive(Clone, Copy)]
pub struct Origin {
    /// The oldest form that the gauge came from.
    pub form: u8,
    /// Whether a run is under way that was converted from an older form.
    pub has_run: bool,
    /// The form, 3 or 4, and the count of rest windows that came from it, as long as nothing has cleared the count.
    pub count: Option<(u8, u32)>,
}

impl Origin {
    /// A gauge that was opened or handed in.
    pub fn newest() -> Origin {
        Origin { form: saved::FORM, has_run: false, count: None }
    }

    /// The gauge was converted from a form, and this is its history since.
    pub fn convert(&mut self, form: u8, history: &History) {
        self.form = self.form.min(form);
        if form < saved::FORM {
            self.has_run = history.run.is_some();
            self.count = Some((form, history.rest_count())).filter(|&(_, count)| count > 0);
        }
    }

    /// A call was made that gave these fixing points and left this history.
    pub fn follow(&mut self, history: &History, points: FixingPoints) {
        let another = points.contains(FixingPoint::Full) || points.contains(FixingPoint::Done);
        self.has_run &= history.run.is_some() && !another;
        self.count = self.count.filter(|_| history.rest_count() > 0);
    }
}
