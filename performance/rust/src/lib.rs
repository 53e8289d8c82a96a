//! The second implementation under the names and types of include/gauge.h.

use std::slice::{from_raw_parts, from_raw_parts_mut};

// For each prototype of the header a line that compiles only if it is defined here with the same types.
include!(concat!(env!("OUT_DIR"), "/prototypes.rs"));

/// # Safety
/// Both pointers are valid for their lengths, and the buffers do not overlap.
#[no_mangle]
pub unsafe extern "C" fn gauge_open(
    configuration: *const u8,
    configuration_length: usize,
    saved: *mut u8,
    saved_length: usize,
) -> u32 {
    reference::calls::open(from_raw_parts(configuration, configuration_length), from_raw_parts_mut(saved, saved_length))
}

/// # Safety
/// Both pointers are valid for their lengths, and the buffers do not overlap.
#[no_mangle]
pub unsafe extern "C" fn gauge_convert(old: *const u8, old_length: usize, saved: *mut u8, saved_length: usize) -> u32 {
    reference::calls::convert(from_raw_parts(old, old_length), from_raw_parts_mut(saved, saved_length))
}

/// # Safety
/// The pointer is valid for its length.
#[no_mangle]
pub unsafe extern "C" fn gauge_window(saved: *mut u8, saved_length: usize, current: i32, voltage: i32, temperature: i32) -> u32 {
    reference::calls::window(from_raw_parts_mut(saved, saved_length), current, voltage, temperature)
}

/// # Safety
/// The pointer is valid for its length.
#[no_mangle]
pub unsafe extern "C" fn gauge_rest(saved: *mut u8, saved_length: usize, windows: u32, temperature: i32) -> u32 {
    reference::calls::rest(from_raw_parts_mut(saved, saved_length), windows, temperature)
}

/// # Safety
/// The pointer is valid for its length.
#[no_mangle]
pub unsafe extern "C" fn gauge_write(saved: *mut u8, saved_length: usize, address: u32, value: u8) -> u32 {
    reference::calls::write(from_raw_parts_mut(saved, saved_length), address, value)
}

/// # Safety
/// Both pointers are valid for their lengths, and the buffers do not overlap.
#[no_mangle]
pub unsafe extern "C" fn gauge_read(
    saved: *const u8,
    saved_length: usize,
    address: u32,
    count: u32,
    reply: *mut u8,
    reply_length: usize,
    place: u32,
) -> u32 {
    reference::calls::read(from_raw_parts(saved, saved_length), address, count, from_raw_parts_mut(reply, reply_length), place)
}

/// # Safety
/// The pointers with a length are valid for it, and no two of the buffers overlap, the command among them.
#[no_mangle]
pub unsafe extern "C" fn gauge_preview(
    saved: *const u8,
    saved_length: usize,
    key: u8,
    reply: *mut u8,
    reply_length: usize,
    command: &mut u8,
) -> u32 {
    reference::calls::preview(from_raw_parts(saved, saved_length), key, from_raw_parts_mut(reply, reply_length), command)
}

/// # Safety
/// The pointer is valid for its length, and neither number lies in its buffer or overlaps the other.
#[no_mangle]
pub unsafe extern "C" fn gauge_estimate(
    saved: *const u8,
    saved_length: usize,
    voltage: i32,
    estimate: &mut u16,
    distance: &mut i32,
) -> u32 {
    reference::calls::estimate(from_raw_parts(saved, saved_length), voltage, estimate, distance)
}
