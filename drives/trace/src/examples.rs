//! A table for the tests: the bench pack's example of paper 01, then a refused window, a read, a preview, a rest and an estimate.

pub const HEADING: &str = "time number NAC LMD RSOC FLAGS CAC TTE MODE AR ARTTE TEMP VOLT FCAC IAV TTF SI STTE CEDV CYCT call\n";

pub const TABLE: &str = "\
      time number   NAC   LMD RSOC        FLAGS   CAC   TTE MODE    AR ARTTE  TEMP  VOLT  FCAC   IAV   TTF    SI  STTE  CEDV  CYCT call
0:00:00.00      0     0  1024    0           CI     0 65535 0x44     0 65535     0     0  1024     0 65535    10     0  3000     0 open 04 5E 77 05 21 10 00 00 6C 15
0:00:05.12      0     0  1024    0           CI     0 65535 0x44     0 65535  1192  3700  1024     0 65535    10     0  3000     0 window 2 3700 1192
0:00:10.24      0  1024  1024  100  CHGS+CI+VDQ  1024 65535 0x40     0 65535  1192  4150  1024    20     0    10  6144  3000     0 window 20 4150 1192
0:00:15.36      0  1019  1024   99       CI+VDQ   892    17 0x40     0 65535  1192  3600   897  3000 65535    10  6114  3000     0 window -3000 3600 1192
0:00:15.36      5  1019  1024   99       CI+VDQ   892    17 0x40     0 65535  1192  3600   897  3000 65535    10  6114  3000     0 window 0 3600 1373
0:00:15.36      0  1019  1024   99       CI+VDQ   892    17 0x40     0 65535  1192  3600   897  3000 65535    10  6114  3000     0 read 0x0C 2
# 0x0C: FB 03
0:00:15.36      0  1019  1024   99       CI+VDQ   892    17 0x40     0 65535  1192  3600   897  3000 65535    10  6114  3000     0 preview nac 900
#        would be   900  1024   87           CI   773    15 0x40   900    58  1192  3600   897  3000 65535    10  5400  3000     0 by WRTNAC
0:36:16.00      0  1019  1024   99       CI+VDQ  1019 65535 0x40     0 65535  1192  3600  1024     0 65535    10  6114  3000     0 rest 422 1192
0:36:16.00      0  1019  1024   99       CI+VDQ  1019 65535 0x40     0 65535  1192  3600  1024     0 65535    10  6114  3000     0 estimate 4003
#        estimate   849 distance -170
# 9 calls, 1 refused
# refused with 5 (temperature out of range): 1, first standard input:5
";

/// A repeated part whose windows count a cycle and a third each, of which whole ones are shown.
pub const REPEATED: &str = "\
      time number   NAC   LMD RSOC        FLAGS   CAC   TTE MODE    AR ARTTE  TEMP  VOLT  FCAC   IAV   TTF    SI  STTE  CEDV  CYCT call
0:00:00.00      0     0  1024    0           CI     0 65535 0x44     0 65535     0     0  1024     0 65535    10     0  3000     0 open 04 5E 77 05 21 10 00 03 6C 15
# repeat 4
0:00:00.00      0     0    30    0           CI     0 65535 0x44    30     0     0     0    30     0 65535    10     0  3000     0 lmd 30
0:00:05.12      0     0    30    0           CI     0     0 0x44    30     0  1192  3600     0 28011 65535    10     0  3000     1 window -28011 3600 1192
0:00:05.12      0     0    30    0           CI     0     0 0x44    30     0  1192  3600     0 28011 65535    10     0  3000     1 round 1 of 4
0:00:10.24      0     0    30    0           CI     0     0 0x44    30     0  1192  3600     0 28011 65535    10     0  3000     2 round 2 of 4
0:00:15.36      0     0    30    0           CI     0     0 0x44    30     0  1192  3600     0 28011 65535    10     0  3000     3 round 3 of 4
0:00:15.36      0     0    30    0           CI     0     0 0x44    30     0  1192  3600     0 28011 65535    10     0  3000     3 lmd 30
0:00:20.48      0     0    30    0           CI     0     0 0x44    30     0  1192  3600     0 28011 65535    10     0  3000     5 window -28011 3600 1192
0:00:20.48      0     0    30    0           CI     0     0 0x44    30     0  1192  3600     0 28011 65535    10     0  3000     5 round 4 of 4
0:00:25.60      0     0    30    0           CI     0 65535 0x44    30     0  1192  3600    30     0 65535    10     0  3000     5 rest 1 1192
# 10 calls, none refused
";

/// The steps of a list without its table, as the second implementation takes them.
pub fn steps(lines: &[&str]) -> Vec<crate::step::Step> {
    let mut second = crate::second::Second::default();
    lines.iter().enumerate().map(|(at, text)| second.step(at + 2, crate::line::parse(text).unwrap())).collect()
}
