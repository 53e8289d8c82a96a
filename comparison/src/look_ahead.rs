//! A preview on both sides, beside the write that it looks ahead to, which is made on a copy of the shipped gauge (paper 02, A2).

use crate::both::{reply_before, Both};
use crate::difference::{same, same_bytes, Difference};
use crate::shipped::{self, Lent};
use reference::calls;
use reference::command::CTRL;
use reference::refusal::{REGISTERS, REPLY};

/// What the command holds before a preview, the number of none.
const COMMAND_BEFORE: u8 = 0xEE;

impl Both {
    /// Makes a preview on both sides: the number, if they agree in all that it gives, with each other and with the write.
    pub fn preview(&self, key: u8, reply_length: usize) -> Result<u32, Difference> {
        let (number_of_write, shown_after_write) = by_write(&self.shipped, key, reply_length);
        let (mut expected, mut expected_command) = (reply_before(reply_length), COMMAND_BEFORE);
        let (mut reply, mut command) = (Lent::new(&expected), Lent::new(&[COMMAND_BEFORE]));
        let number = shipped::preview(&self.shipped, key, &mut reply, &mut command);
        same("number", number, calls::preview(&self.reference, key, &mut expected, &mut expected_command))?;
        same_bytes("reply", reply.bytes(), &expected)?;
        same_bytes("command", command.bytes(), &[expected_command])?;
        same("bytes beside the reply kept", reply.guards_kept(), true)?;
        same("bytes beside the command kept", command.guards_kept(), true)?;
        if number != 0 {
            same_bytes("command of a refused preview", command.bytes(), &[COMMAND_BEFORE])?;
        }
        same("number of the preview and of the write on a copy", number, number_of_write)?;
        same_bytes("reply of the preview and of the read after the write on a copy", reply.bytes(), &shown_after_write)?;
        Ok(number)
    }
}

/// What a preview has to give by the write of its key to CTRL on a copy and the read of all registers after it: the number and the
/// reply. A refused write gives its number, last comes 13 for the reply's length, and then the reply keeps.
fn by_write(saved: &Lent, key: u8, reply_length: usize) -> (u32, Vec<u8>) {
    let mut copy = saved.clone();
    let number = shipped::write(&mut copy, CTRL, key);
    if number != 0 {
        return (number, reply_before(reply_length));
    }
    if reply_length != REGISTERS as usize {
        return (REPLY, reply_before(reply_length));
    }
    let (number, registers) = shipped::registers(&copy);
    (number, registers.to_vec())
}
