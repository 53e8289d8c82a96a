//! What forms 3 and 4 hold behind the first 41 bytes, carried over to the wider count of form 5 (paper 02, A6).

mod common;
use common::*;
use reference::calls::estimate;
use reference::forms;
use reference::gauge::Gauge;

/// The used gauge in forms 3 and 4 with a count as it is stored.
fn stored(count: u16) -> [Vec<u8>; 2] {
    [with_stored_count(&as_form_3(&used()), count), with_stored_count(&as_form_4(&used()), count)]
}

/// The used gauge in form 4 with a CYCT and a drain as they are stored.
fn of_form_4(cyct: u16, drain: u64) -> Form4 {
    let mut old = as_form_4(&used());
    old[43..45].copy_from_slice(&cyct.to_le_bytes());
    old[45..].copy_from_slice(&drain.to_le_bytes());
    old
}

#[test]
fn every_stored_count_is_carried_over_as_that_number() {
    for count in 0..=u16::MAX {
        for old in stored(count) {
            assert_eq!(forms::load(&old).map(|gauge| gauge.rest_count), Ok(u32::from(count)));
        }
    }
}

#[test]
fn a_stored_65535_counts_on() {
    // It is where the older versions stopped, and no stop any more.
    for old in stored(65_535) {
        let bytes = converted(&old).unwrap();
        assert_eq!(bytes[41..45], [0xFF, 0xFF, 0, 0]);
        for (windows, count) in [(1, 65_536), (2, 65_537), (421, 65_956), (MONTH, 571_785)] {
            let rested = after_rest(bytes, windows, 1192);
            assert_eq!(gauge(&rested).rest_count, count);
            assert_eq!(estimate(&rested, 3700, &mut 0, &mut 0), 0);
        }
    }
}

#[test]
fn the_cycles_of_form_4_move_behind_the_wider_count() {
    // Whatever stands in them, no byte of them becomes one of the count, and none is read from a place of form 5.
    for cyct in [0, 1, 0x00FF, 0xFF00, 0x5678, 65_535] {
        for drain in [0, 1, 0xFFFF, 0x1_0000, 0x0123_4567_89AB, 65_535 * G as u64 - 1] {
            let old = of_form_4(cyct, drain);
            let new = converted(&old).unwrap();
            assert_eq!((&new[41..43], &new[43..45]), (&old[41..43], &[0, 0][..]));
            assert_eq!((&new[45..47], &new[47..]), (&old[43..45], &old[45..]));
            let held = gauge(&new);
            assert_eq!((held.rest_count, held.cyct, held.cycle_drain), (0x1234, i32::from(cyct), drain as i64));
        }
    }
}

#[test]
fn a_count_below_422_in_form_4_is_not_rested_whatever_cyct_is() {
    for (count, number) in [(0, 15), (421, 15), (422, 0), (65_535, 0)] {
        for cyct in [0, 1, 65_535] {
            let bytes = converted(&with_stored_count(&of_form_4(cyct, 0), count)).unwrap();
            assert_eq!(estimate(&bytes, 3700, &mut 0, &mut 0), number);
        }
    }
}

#[test]
fn a_wider_count_is_read_in_form_5_alone() {
    for rest_count in [65_536, 65_536 + 421, 0x0001_0000, 0xFFFF_0000, 4_294_967_294, 4_294_967_295] {
        let bytes = with(|gauge| *gauge = Gauge { rest_count, cyct: 3, cycle_drain: 5, ..*gauge });
        assert_eq!(converted(&bytes), Ok(bytes));
        let held = gauge(&bytes);
        assert_eq!((held.rest_count, held.cyct, held.cycle_drain), (rest_count, 3, 5));
    }
}

#[test]
fn bytes_of_one_form_with_the_length_of_the_other_are_refused() {
    let (old, new) = (as_form_4(&used()), used());
    for appended in [0, 0xFF] {
        assert_eq!(converted(&[&old[..], &[appended; 2]].concat()), Err(14));
    }
    assert_eq!(converted(&new[..53]), Err(14));
    // The number of the other form with its own length: form 4 as form 5 is two bytes short, form 5 as form 4 two too long.
    let (mut as_new, mut as_old) = (old, new);
    as_new[0] = 5;
    as_old[0] = 4;
    assert_eq!((converted(&as_new), converted(&as_old)), (Err(14), Err(14)));
}

#[test]
fn each_older_form_is_refused_with_every_other_length() {
    for (form, old) in (1..).zip(as_older_forms(&used())) {
        let long = [old.as_slice(), &[0; 24]].concat();
        for length in 0..=64 {
            assert_eq!(converted(&long[..length]).is_ok(), length == old.len(), "form {form} of {length} bytes");
        }
    }
}
