//! The bench example, and every kind of line.

use reference::bench::output;

fn printed(input: &[u8]) -> String {
    String::from_utf8(output(input)).unwrap()
}

/// What one line after the first prints.
fn line(text: &str) -> String {
    let all = printed(format!("c v t\n{text}\n").as_bytes());
    let rest = all.strip_prefix("nac lmd rsoc flags\n").unwrap();
    String::from(rest.strip_suffix('\n').unwrap())
}

#[test]
fn the_example_of_the_paper() {
    let input = b"c v t\n2 3700 1192\n20 4150 1192\n-3000 3600 1192\n";
    let expected = "nac lmd rsoc flags\n0 1024 0 16\n1024 1024 100 148\n1019 1024 99 20\n";
    assert_eq!(printed(input), expected);
    assert_eq!(printed(&input[..input.len() - 1]), expected);
}

#[test]
fn the_first_line() {
    for other in ["", "\n", "c v t ", " c v t", "c v t\r\n2 3700 1192\n", "C v t\n", "c v\n", "c v tt", "\nc v t\n"] {
        assert_eq!(printed(other.as_bytes()), "names\n", "{other:?}");
    }
    assert_eq!(printed(b"c v t"), "nac lmd rsoc flags\n");
    assert_eq!(printed(b"c v t\n"), "nac lmd rsoc flags\n");
    assert_eq!(printed(b"c v t\n\n"), "nac lmd rsoc flags\nunread\n");
    assert_eq!(printed(b"c v t\n\n\n"), "nac lmd rsoc flags\nunread\nunread\n");
}

#[test]
fn lines_that_are_not_three_whole_numbers() {
    for text in [
        "",
        " ",
        "1",
        "1 2",
        "2 3700 1192 ",
        " 2 3700 1192",
        "2  3700 1192",
        "2 3700 1192 1",
        "+2 3700 1192",
        "2\t3700 1192",
        "- 3700 1192",
        "--2 3700 1192",
        "2 3700 1192\r",
        "2 3700 1192\0",
        "2- 3700 1192",
        "0x2 3700 1192",
        "2. 3700 1192",
        "c v t",
        "2147483648 3700 1192",
        "-2147483649 3700 1192",
        "2 99999999999999999999999999 1192",
        "2 3700 4294968488",
        "18446744073709551618 3700 1192",
    ] {
        assert_eq!(line(text), "unread", "{text:?}");
    }
}

#[test]
fn numbers_written_in_other_ways_are_read() {
    let zeros = "0".repeat(5000);
    for text in ["-0 3700 1192", "007 3700 1192", "0 03700 001192", &format!("-{zeros} {zeros}3700 {zeros}1192")] {
        assert!(["0 1024 0 16", "0 1024 0 144"].contains(&line(text).as_str()), "{text:?}");
    }
}

#[test]
fn a_refused_line_says_its_number_and_changes_nothing() {
    assert_eq!(line("28012 3700 1192"), "refused 3");
    assert_eq!(line("-2147483648 3700 1192"), "refused 3");
    assert_eq!(line("2147483647 2599 0"), "refused 3");
    assert_eq!(line("0 2599 0"), "refused 4");
    assert_eq!(line("0 -1 1373"), "refused 4");
    assert_eq!(line("0 2600 1373"), "refused 5");
    assert_eq!(line("20 4150 1192\n0 2600 0\nx\n0 3700 1192"), "1024 1024 100 148\nrefused 5\nunread\n1023 1024 99 20");
}
