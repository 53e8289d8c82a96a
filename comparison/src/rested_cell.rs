//! An estimate on both sides (paper 02, A4).

use crate::both::Both;
use crate::difference::{same, Difference};
use crate::lent_number::LentNumber;
use crate::random::Random;
use crate::shipped;
use reference::calls;

impl Both {
    /// Makes an estimate on both sides: the number, if they agree in all that it gives. On the shipped side alone, the distance has to
    /// be that from the NAC which a read shows.
    pub fn estimate(&self, voltage: i32) -> Result<u32, Difference> {
        let before = numbers_before(&self.reference, voltage);
        let (mut expected, mut expected_distance) = before;
        let (mut estimate, mut distance) = (LentNumber::new(before.0), LentNumber::new(before.1));
        let number = shipped::estimate(&self.shipped, voltage, &mut estimate, &mut distance);
        same("number", number, calls::estimate(&self.reference, voltage, &mut expected, &mut expected_distance))?;
        let given = (estimate.number(), distance.number());
        same("estimate and distance", given, (expected, expected_distance))?;
        same("numbers beside the estimate kept", estimate.beside_kept(), true)?;
        same("numbers beside the distance kept", distance.beside_kept(), true)?;
        if number != 0 {
            return same("estimate and distance of a refused call", given, before).map(|_| number);
        }
        let (_, registers) = shipped::registers(&self.shipped);
        let nac = i32::from(u16::from_le_bytes([registers[0x0C], registers[0x0D]]));
        same("distance and the estimate less the NAC that is read", given.1, i32::from(given.0) - nac)?;
        Ok(number)
    }
}

/// What the estimate and the distance hold before the call: others for each gauge and voltage, so that no number left there is taken for
/// an answer, and the same ones where a trial is run again.
fn numbers_before(saved: &[u8], voltage: i32) -> (u16, i32) {
    let seed = saved.iter().fold(voltage as u64, |sum, &byte| sum.wrapping_mul(257).wrapping_add(u64::from(byte)));
    let numbers = Random::new(seed).next();
    (numbers as u16, (numbers >> 32) as i32)
}
