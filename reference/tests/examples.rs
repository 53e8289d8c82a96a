//! The proved examples of paper 01 (●), and the bench example as calls.

mod common;
use common::*;
use reference::command::{self, Command};
use reference::configuration::Configuration;
use reference::gauge::{EDV1, VDQ};
use reference::{bench::BENCH_PACK, calls, compensation, leak, learning};

#[test]
fn the_bench_pack_means_what_the_paper_says() {
    let pack = Configuration::new(&BENCH_PACK).unwrap();
    let meant = (pack.design_capacity(), pack.edvf(), pack.e1(), pack.s0(), pack.dmf(), pack.sd());
    assert_eq!(meant, (1024, 2800, 3000, 10, 2, 1));
}

#[test]
fn a_current_of_2_counts_0_and_3_counts_3() {
    let pack = Configuration::new(&BENCH_PACK).unwrap();
    assert_eq!([2, 3, -2, -3, 0].map(|a| pack.counted(a)), [0, 3, 0, -3, 0]);
}

#[test]
fn temperature_1171_gives_4_and_1172_gives_8() {
    assert_eq!((leak::w(1171), leak::w(1172)), (4, 8));
}

#[test]
fn charge_after_line_three() {
    assert_eq!(gauge(&line_three()).h, 137_663_991_808);
}

#[test]
fn compensation_after_line_three() {
    let bytes = line_three();
    assert_eq!(compensation::dcmp(&gauge(&bytes), 3000), 127);
    assert_eq!((pair(&bytes, 0x10), pair(&bytes, 0x16)), (892, 17));
}

#[test]
fn drains_teach() {
    assert_eq!(learning::learned(900 * G, 1024), 960);
    assert_eq!(learning::learned(100 * G, 1024), 896);
    assert_eq!(learning::learned(61_440 * G, 65_535), 65_535);
}

#[test]
fn a_current_of_20_disqualifies_and_21_does_not() {
    let run = with(|gauge| {
        gauge.h = 100 * G;
        gauge.dcr = 900 * G;
        gauge.flags |= VDQ;
    });
    assert_eq!(gauge(&after(run, -20, 3000, 1192)).lmd, 1024);
    assert_eq!(gauge(&after(run, -21, 3000, 1192)).lmd, 960);
}

#[test]
fn a_voltage_of_3000_sets_edv1_and_3001_does_not() {
    let held = with(|gauge| gauge.h = 100 * G);
    assert_eq!(gauge(&after(held, -100, 3000, 1192)).flags & EDV1, EDV1);
    assert_eq!(gauge(&after(held, -100, 3001, 1192)).flags & EDV1, 0);
}

#[test]
fn mode_0x35_with_0xa9_is_wrtnac() {
    assert_eq!(command::decide(0xA9, 0x35, 0), Ok(Command::Wrtnac));
}

#[test]
fn a_window_past_e1_to_edvf_does_not_teach() {
    let run = with(|gauge| {
        gauge.h = 100 * G;
        gauge.dcr = 900 * G;
        gauge.flags |= VDQ;
    });
    let fallen = gauge(&after(run, -100, 2800, 1192));
    assert_eq!((fallen.lmd, fallen.h, fallen.flags & VDQ), (1024, 0, 0));
}

#[test]
fn the_remainder_of_the_charge_is_kept_when_nac_is_read() {
    let mut bytes = line_three();
    let before = bytes;
    let mut reply = [0; 2];
    assert_eq!(calls::read(&bytes, 0x0C, 2, &mut reply, 0), 0);
    assert_eq!(bytes, before);
    assert_eq!(calls::window(&mut bytes, 0, 3600, 1192), 0);
    assert_eq!(gauge(&bytes).h, 137_663_991_808 - 1019 * 8);
}
