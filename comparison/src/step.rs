//! A step of a trial.

use reference::history::Call;

#[derive(Clone, Copy, PartialEq, Eq)]
pub enum Step {
    /// A call on the gauge as the step before left it.
    Call(Call),
    /// The handset's firmware is updated: the bytes stand there in a form and are converted.
    Update { form: u8 },
}

impl From<Call> for Step {
    fn from(call: Call) -> Step {
        Step::Call(call)
    }
}

impl Step {
    /// The step as it is printed.
    pub fn text(&self) -> String {
        match self {
            Step::Call(call) => call_text(call),
            Step::Update { form } => format!("update  the saved bytes, put into form {form}, are converted"),
        }
    }
}

fn call_text(call: &Call) -> String {
    match *call {
        Call::Window { current, voltage, temperature } => {
            format!("window  current {current}  voltage {voltage}  temperature {temperature}")
        }
        Call::Rest { windows, temperature } => format!("rest    windows {windows}  temperature {temperature}"),
        Call::Write { address, value } => format!("write   address {address:#04X}  value {value:#04X}"),
        Call::Read { address, count, reply_length, place } => {
            format!("read    address {address:#04X}  count {count}  reply {reply_length} bytes  place {place}")
        }
        Call::Preview { key, reply_length } => format!("preview key {key:#04X}  reply {reply_length} bytes"),
        Call::Estimate { voltage } => format!("estimate voltage {voltage}"),
    }
}
