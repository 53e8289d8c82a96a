//! The last column of the table: a call in the one form in which `replay` writes it.

use reference::command::{self, ALL_COMMAND_BITS};
use reference::history::Call;
use reference::refusal::REGISTERS;

/// A line of a list. A command is several writes, which are refused together. The preview of a key is one call, that of a command writes AR
/// and MODE on a copy first.
#[derive(Clone, Debug, PartialEq, Eq)]
pub enum Line {
    Open(Vec<u8>),
    Load(Vec<u8>),
    One(Call),
    Command(Command),
    Preview(Command),
}

/// A command as a host gives it, with AR where it needs one.
#[derive(Clone, Copy, Debug, PartialEq, Eq)]
pub struct Command {
    command: command::Command,
    ar: Option<u16>,
}

impl Command {
    /// The writes before the key, from the MODE that stands before them. MODE keeps the bits that are no commands.
    pub fn prepares(&self, mode: u8) -> Vec<Call> {
        let write = |address, value| Call::Write { address, value };
        let mut writes = Vec::new();
        if let Some(ar) = self.ar {
            let [low, high] = ar.to_le_bytes();
            writes.extend([write(command::AR_LOW, low), write(command::AR_HIGH, high)]);
        }
        let (bit, _) = self.command.bit_and_key();
        writes.push(write(command::MODE, mode & !ALL_COMMAND_BITS | bit));
        writes
    }

    pub fn key(&self) -> u8 {
        self.command.bit_and_key().1
    }
}

/// The preview of a key as `replay` makes it, with a reply of all registers.
pub fn preview(key: u8) -> Call {
    Call::Preview { key, reply_length: REGISTERS as usize }
}

pub fn parse(text: &str) -> Result<Line, String> {
    let words: Vec<&str> = text.split_ascii_whitespace().collect();
    line(&words).ok_or_else(|| format!("`{text}` is no call that replay prints"))
}

fn line(words: &[&str]) -> Option<Line> {
    match *words {
        ["open", ref bytes @ ..] => Some(Line::Open(hexadecimal(bytes)?)),
        ["load", ref bytes @ ..] => Some(Line::Load(hexadecimal(bytes)?)),
        ["preview", ref previewed @ ..] => match command(previewed) {
            Some(command) => Some(Line::Preview(command)),
            None => call(words).map(Line::One),
        },
        _ => command(words).map(Line::Command).or_else(|| call(words).map(Line::One)),
    }
}

fn command(words: &[&str]) -> Option<Command> {
    use command::Command::{Done, Frst, Prst, Wrtlmd, Wrtnac};
    let (command, ar) = match *words {
        ["done"] => (Done, None),
        ["reset"] => (Frst, None),
        ["partial"] => (Prst, None),
        ["nac", n] => (Wrtnac, Some(number(n)?)),
        ["lmd", n] => (Wrtlmd, Some(number(n)?)),
        _ => return None,
    };
    Some(Command { command, ar })
}

fn call(words: &[&str]) -> Option<Call> {
    Some(match *words {
        ["window", c, v, t] => Call::Window { current: number(c)?, voltage: number(v)?, temperature: number(t)? },
        ["rest", n, t] => Call::Rest { windows: number(n)?, temperature: number(t)? },
        ["write", address, value] => Call::Write { address: number(address)?, value: number(value)? },
        ["read", address, count] => {
            Call::Read { address: number(address)?, count: number(count)?, reply_length: REGISTERS as usize, place: 0 }
        }
        ["preview", key] => preview(number(key)?),
        ["estimate", voltage] => Call::Estimate { voltage: number(voltage)? },
        _ => return None,
    })
}

fn hexadecimal(words: &[&str]) -> Option<Vec<u8>> {
    words.iter().map(|word| u8::from_str_radix(word, 16).ok()).collect()
}

/// Decimal, or hexadecimal after 0x.
fn number<N: TryFrom<i64>>(word: &str) -> Option<N> {
    let value = match word.strip_prefix("0x") {
        Some(digits) => i64::from_str_radix(digits, 16),
        None => word.parse(),
    };
    N::try_from(value.ok()?).ok()
}

#[cfg(test)]
mod tests {
    use super::*;

    #[test]
    fn calls_in_their_one_form() {
        let window = Call::Window { current: -3000, voltage: 3600, temperature: 1192 };
        assert_eq!(parse("window -3000 3600 1192"), Ok(Line::One(window)));
        assert_eq!(parse("write 0x01 0x10"), Ok(Line::One(Call::Write { address: 1, value: 16 })));
        let read = Call::Read { address: 12, count: 2, reply_length: 128, place: 0 };
        assert_eq!(parse("read 0x0C 2"), Ok(Line::One(read)));
        assert_eq!(parse("open 04 5E"), Ok(Line::Open(vec![0x04, 0x5E])));
        assert_eq!(parse("load 01"), Ok(Line::Load(vec![1])));
        assert_eq!(parse("estimate -5"), Ok(Line::One(Call::Estimate { voltage: -5 })));
    }

    #[test]
    fn a_command_keeps_the_other_bits_of_mode() {
        let write = |address, value| Call::Write { address, value };
        assert_eq!(given("nac 900").prepares(0xFF), [write(2, 0x84), write(3, 0x03), write(1, 0xE4)]);
        assert_eq!(given("done").prepares(0x44), [write(1, 0x54)]);
        assert_eq!(given("lmd 1").prepares(0x44)[2..], [write(1, 0x45)]);
        assert_eq!(["nac 900", "done", "lmd 1"].map(|text| given(text).key()), [0xA9, 0xA9, 0x56]);
    }

    fn given(text: &str) -> Command {
        match parse(text) {
            Ok(Line::Command(command)) => command,
            other => panic!("{other:?}"),
        }
    }

    #[test]
    fn previews_of_a_key_and_of_a_command() {
        assert_eq!(parse("preview 0xA9"), Ok(Line::One(Call::Preview { key: 0xA9, reply_length: 128 })));
        for text in ["nac 900", "lmd 1", "done", "reset", "partial"] {
            assert_eq!(parse(&format!("preview {text}")), Ok(Line::Preview(given(text))));
        }
    }

    #[test]
    fn anything_else_is_an_error() {
        for text in ["", "window 1 2", "rest -1 1192", "write 0x01 0x100", "nac 65536", "done 1", "open 4G", "sleep 1"] {
            assert!(parse(text).is_err(), "{text}");
        }
        for text in ["preview", "preview 256", "preview nac", "preview done 1", "preview read 0x0C 2", "preview preview 1"] {
            assert!(parse(text).is_err(), "{text}");
        }
        for text in ["estimate", "estimate 3700 1", "estimate 2147483648", "preview estimate 3700"] {
            assert!(parse(text).is_err(), "{text}");
        }
    }
}
