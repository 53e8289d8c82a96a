//! The numbers (paper 01, "The fourteen numbers"; paper 02, A4: 15 and 16) and, for each call, which of them its arguments give.
//!
//! Number 14 is about the saved bytes and is found in `forms`. Each function here tests in the order of the papers.

use crate::command::{self, Command};

pub const CONFIGURATION_LENGTH: u32 = 1;
pub const ILMD_ZERO: u32 = 2;
pub const CURRENT: u32 = 3;
pub const VOLTAGE: u32 = 4;
pub const TEMPERATURE: u32 = 5;
pub const REST_LENGTH: u32 = 6;
pub const ADDRESS: u32 = 7;
pub const KEY: u32 = 8;
pub const NO_COMMAND: u32 = 9;
pub const NOT_CARRIED: u32 = 10;
pub const LMD_ZERO: u32 = 11;
pub const COUNT: u32 = 12;
pub const REPLY: u32 = 13;
pub const SAVED: u32 = 14;
pub const NOT_RESTED: u32 = 15;
pub const ESTIMATE_VOLTAGE: u32 = 16;

pub const CURRENT_MAX: i32 = 28_011;
pub const VOLTAGE_MIN: i32 = 2_600;
pub const VOLTAGE_MAX: i32 = 4_500;
pub const TEMPERATURE_MIN: i32 = 1_012;
pub const TEMPERATURE_MAX: i32 = 1_372;
/// Thirty days (paper 02, A6).
pub const REST_MAX: u32 = 506_250;
pub const REGISTERS: u32 = 128;

// What an estimate asks for (paper 02, A4): rest windows, and a voltage that the table has.
pub const ESTIMATE_REST_MIN: u32 = 422;
pub const ESTIMATE_VOLTAGE_MIN: i32 = 3_000;
pub const ESTIMATE_VOLTAGE_MAX: i32 = 4_200;

pub fn current_in_range(current: i32) -> bool {
    (-CURRENT_MAX..=CURRENT_MAX).contains(&current)
}

pub fn voltage_in_range(voltage: i32) -> bool {
    (VOLTAGE_MIN..=VOLTAGE_MAX).contains(&voltage)
}

pub fn temperature_in_range(temperature: i32) -> bool {
    (TEMPERATURE_MIN..=TEMPERATURE_MAX).contains(&temperature)
}

/// 3, 4, 5. The current is tested as handed in, before the DMF.
pub fn window(current: i32, voltage: i32, temperature: i32) -> Result<(), u32> {
    if !current_in_range(current) {
        return Err(CURRENT);
    }
    if !voltage_in_range(voltage) {
        return Err(VOLTAGE);
    }
    if !temperature_in_range(temperature) {
        return Err(TEMPERATURE);
    }
    Ok(())
}

/// 6 before 5.
pub fn rest(windows: u32, temperature: i32) -> Result<(), u32> {
    if !(1..=REST_MAX).contains(&windows) {
        return Err(REST_LENGTH);
    }
    if !temperature_in_range(temperature) {
        return Err(TEMPERATURE);
    }
    Ok(())
}

/// 7, then for a key at CTRL 8 to 11, by the MODE and AR that stand before the write.
pub fn write(address: u32, value: u8, mode: u8, ar: i32) -> Result<(), u32> {
    match address {
        0x00 => command::decide(value, mode, ar).map(|_| ()),
        0x01..=0x03 => Ok(()),
        _ => Err(ADDRESS),
    }
}

/// 8 to 11 as the write of the key at CTRL, last 13 for a reply not of 128 bytes (paper 02, A2). Else the command that the key picks.
pub fn preview(key: u8, mode: u8, ar: i32, reply_length: usize) -> Result<Command, u32> {
    let command = command::decide(key, mode, ar)?;
    if reply_length != REGISTERS as usize {
        return Err(REPLY);
    }
    Ok(command)
}

/// 12, 13. The sums are taken in 64 bits, so that none of them wraps.
pub fn read(address: u32, count: u32, reply_length: usize, place: u32) -> Result<(), u32> {
    if count == 0 || u64::from(address) + u64::from(count) > u64::from(REGISTERS) {
        return Err(COUNT);
    }
    if u64::from(place) + u64::from(count) > reply_length as u64 {
        return Err(REPLY);
    }
    Ok(())
}

/// 15, then 16: after too little rest a voltage outside the table is 15 too (paper 02, A4).
pub fn estimate(rest_count: u32, voltage: i32) -> Result<(), u32> {
    if rest_count < ESTIMATE_REST_MIN {
        return Err(NOT_RESTED);
    }
    if !(ESTIMATE_VOLTAGE_MIN..=ESTIMATE_VOLTAGE_MAX).contains(&voltage) {
        return Err(ESTIMATE_VOLTAGE);
    }
    Ok(())
}
