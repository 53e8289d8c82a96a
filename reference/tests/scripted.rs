//! The rows of `crates/scripted` are numbers of this implementation: each script of those files is run here, and the list that stands
//! in its row is the one that comes out. The rows themselves are proved of the definitions.

use std::collections::HashMap;
use std::fs;
use std::path::Path;

use reference::bench;
use reference::calls;
use reference::history::Call;
use reference::saved;
use reference::trace::Trace;

/// A file of definitions in one line, without comments and `use` lines.
fn text(name: &str) -> String {
    let path = Path::new(env!("CARGO_MANIFEST_DIR")).join("../crates/scripted/specs").join(name);
    let lines = fs::read_to_string(&path).unwrap_or_else(|error| panic!("{}: {error}", path.display()));
    let kept = lines.lines().map(|line| line.split("--").next().unwrap()).filter(|line| !line.starts_with("use "));
    kept.collect::<Vec<_>>().join(" ").split_whitespace().collect::<Vec<_>>().join(" ")
}

/// A numeral, or a signed one: `pos 7`, `negsuc 6`, `drawn 7`.
fn number(written: &str) -> i64 {
    let written = written.trim_matches(|c| c == '(' || c == ')').replace('_', "");
    if let Some((sign, magnitude)) = written.split_once(' ') {
        let magnitude = number(magnitude);
        return match sign {
            "pos" => magnitude,
            "drawn" => -magnitude,
            "negsuc" => -magnitude - 1,
            _ => panic!("no number: {written}"),
        };
    }
    match written.strip_prefix("0x") {
        Some(digits) => i64::from_str_radix(digits, 16),
        None => written.parse(),
    }
    .unwrap_or_else(|error| panic!("{written}: {error}"))
}

/// The entries of a list that is written out.
fn entries(list: &str) -> Vec<&str> {
    let entries = list.trim().strip_suffix("[]").unwrap_or_else(|| panic!("no list: {list}"));
    entries.split('∷').map(str::trim).filter(|entry| !entry.is_empty()).collect()
}

fn numbers(list: &str) -> Vec<i64> {
    entries(list).into_iter().map(number).collect()
}

/// The arguments of a call: words, or what stands between parentheses.
fn arguments(call: &str) -> Vec<&str> {
    let mut out = Vec::new();
    let mut rest = call.trim();
    while !rest.is_empty() {
        let end = if rest.starts_with('(') { rest.find(')').unwrap() + 1 } else { rest.find(' ').unwrap_or(rest.len()) };
        out.push(&rest[..end]);
        rest = rest[end..].trim_start();
    }
    out
}

fn byte(written: &str) -> u8 {
    let inner = written.trim_matches(|c| c == '(' || c == ')').strip_prefix("byte ").expect("a byte");
    number(inner) as u8
}

fn call(written: &str) -> Call {
    let words = arguments(written);
    let numbers = |at: usize| number(words[at]);
    match words[0] {
        "window" => Call::Window { current: numbers(1) as i32, voltage: numbers(2) as i32, temperature: numbers(3) as i32 },
        "rest" => Call::Rest { windows: numbers(1) as u32, temperature: numbers(2) as i32 },
        "write" => Call::Write { address: numbers(1) as u32, value: byte(words[2]) },
        "read" => Call::Read {
            address: numbers(1) as u32,
            count: numbers(2) as u32,
            place: numbers(3) as u32,
            reply_length: numbers(4) as usize,
        },
        "preview" => Call::Preview { key: byte(words[1]), reply_length: numbers(2) as usize },
        "estimate" => Call::Estimate { voltage: numbers(1) as i32 },
        _ => panic!("no call: {written}"),
    }
}

/// Each `times of call` of a script, so many times.
fn script(list: &str) -> Vec<Call> {
    let mut out = Vec::new();
    for entry in entries(list) {
        let (times, made) = entry.split_once(" of ").unwrap_or_else(|| panic!("no call of a script: {entry}"));
        out.extend(std::iter::repeat(call(made)).take(number(times) as usize));
    }
    out
}

/// The definitions of some files that are lists of one kind, by name.
fn definitions(texts: &[String], kind: &str) -> HashMap<String, String> {
    let mut out = HashMap::new();
    for part in texts.iter().flat_map(|text| text.split("abbrev ").skip(1)) {
        let name = part.trim_start_matches("pub ").split(' ').next().expect("a name");
        let begin = format!("{name} : List {kind} {name} = ");
        if let Some((_, list)) = part.split_once(&begin) {
            let end = list.find("[]").expect("the end of a list") + 2;
            out.insert(name.to_string(), list[..end].to_string());
        }
    }
    out
}

struct Row {
    name: String,
    kind: String,
    start: String,
    script: String,
    /// The list that is written out, or its name.
    list: String,
}

/// The rows of a file: `pub NAME : KIND START SCRIPT ≡ LIST`, or, of a text, `KIND INPUT ≡ LIST`.
fn rows(text: &str) -> Vec<Row> {
    let (_, rows) = text.split_once(": Type 0 where ").expect("a record of rows");
    let mut out = Vec::new();
    for row in rows.split("pub ").skip(1) {
        let (name, claim) = row.split_once(" : ").expect("a row");
        let (asked, list) = claim.split_once(" ≡ ").expect("a claim");
        let words: Vec<&str> = asked.split(' ').collect();
        let (kind, start, script) = match words[..] {
            [kind, start, script] => (kind, start, script),
            [kind, start] => (kind, start, ""),
            _ => panic!("{name}: {asked}"),
        };
        out.push(Row {
            name: name.into(),
            kind: kind.into(),
            start: start.into(),
            script: script.into(),
            list: list.trim().into(),
        });
    }
    out
}

fn started(start: &[u8]) -> Trace {
    if start.len() == 10 { Trace::open(start) } else { Trace::load(start) }.expect("a start")
}

fn registers(saved: &[u8]) -> Vec<u8> {
    let mut reply = vec![0; 128];
    assert_eq!(calls::read(saved, 0, 128, &mut reply, 0), 0);
    reply
}

/// What a row says of its start and script, by this implementation.
fn worked_out(kind: &str, start: &[u8], calls: &[Call]) -> Vec<i64> {
    let mut trace = started(start);
    let mut numbers = Vec::new();
    for call in calls {
        let refused = trace.history().refused(call).err().unwrap_or(0);
        numbers.push(i64::from(refused));
        assert_eq!(trace.call(call).err().unwrap_or(0), refused, "gauge and history on {call:?}");
    }
    let history = trace.history();
    let all = registers(trace.saved());
    let bytes = match kind {
        "registers_of" => all,
        "saved_of" | "bytes_of" | "converted_of" => trace.saved().to_vec(),
        "flags_and_mode" => vec![all[0x0A], all[0x01]],
        "numbers_of" | "refusals_of" | "called_of" => return numbers,
        "charge_of" => {
            let gauge = saved::load(trace.saved()).expect("a gauge");
            return vec![gauge.h, i64::from(gauge.lmd), gauge.dcr];
        }
        "history_of" | "begun_of" => {
            let run = history.run.unwrap_or(-1);
            let sums = [history.p, history.q as i64, history.k as i64, i64::from(history.l), run];
            let host = [i64::from(history.mode), i64::from(history.ar)];
            let counts = [history.rest_windows as i64, i64::from(history.cycles), history.cycle_drain];
            return [&sums[..], &host, &counts].concat();
        }
        _ => panic!("no kind of row: {kind}"),
    };
    bytes.into_iter().map(i64::from).collect()
}

/// A list as the rows have it.
fn written(kind: &str, list: &[i64]) -> String {
    let one = |n: &i64| match kind {
        "history_of" | "begun_of" if *n < 0 => format!("negsuc {}", -n - 1),
        "history_of" | "begun_of" => format!("pos {n}"),
        "numbers_of" | "refusals_of" | "called_of" | "charge_of" => format!("{n}"),
        _ => format!("0x{n:02X}"),
    };
    list.iter().map(|n| one(n) + " ∷ ").collect::<String>() + "[]"
}

#[test]
fn every_row_is_what_this_implementation_gives() {
    let files = ["RegisterRows.antt", "KeptRows.antt", "EventRows.antt", "CallRows.antt", "TextRows.antt"];
    let texts: Vec<String> = ["Packs.antt"].iter().chain(&files).map(|name| text(name)).collect();
    let starts = definitions(&texts, "ℕ");
    let scripts = definitions(&texts, "Repeated");
    let (mut held, mut wrong) = (0, Vec::new());
    for text in &texts[1..] {
        for row in rows(text) {
            let start: Vec<u8> = numbers(&starts[&row.start]).into_iter().map(|number| number as u8).collect();
            let list = match row.kind.as_str() {
                "printed" | "fed_of" | "parts_of" => bench::output(&start).into_iter().map(i64::from).collect(),
                kind => worked_out(kind, &start, &script(&scripts[&row.script])),
            };
            held += 1;
            if list != numbers(starts.get(&row.list).unwrap_or(&row.list)) {
                wrong.push(format!("{} ≡ {}", row.name, written(&row.kind, &list)));
            }
        }
    }
    assert!(wrong.is_empty(), "{} of {held} rows are other numbers:\n{}", wrong.len(), wrong.join("\n"));
    assert!(held > 50, "{held} rows");
}

/// The registers of the map that are pairs, and those that are bytes, but for CTRL, which reads 0.
const PAIRS: [usize; 15] = [0x02, 0x04, 0x06, 0x08, 0x0C, 0x0E, 0x10, 0x12, 0x14, 0x16, 0x18, 0x1A, 0x1C, 0x20, 0x2A];
const BYTES: [usize; 3] = [0x01, 0x0A, 0x0B];

/// A row of registers in which two were 0 or alike would not tell whether they are exchanged.
#[test]
fn the_registers_of_the_rows_are_unlike() {
    let (drives, kept) = (rows(&text("RegisterRows.antt")), rows(&text("KeptRows.antt")));
    for row in drives.iter().chain(&kept).filter(|row| row.kind == "registers_of") {
        let list = numbers(&row.list);
        let charging = list[0x0A] & 0x80 != 0;
        let pair = |at: &usize| (*at, list[*at] + 256 * list[at + 1]);
        let byte = |at: &usize| (*at, list[*at]);
        let configuration: Vec<usize> = (0x76..0x80).collect();
        let shown: Vec<(usize, i64)> = PAIRS.iter().map(pair).chain(BYTES.iter().chain(&configuration).map(byte)).collect();
        for (at, value) in &shown {
            // the bench pack has 0 in PKCFG and ID3
            let bench = ["bench", "kept_charging"].contains(&row.start.as_str());
            assert!(*value != 0 || (bench && [0x7C, 0x7D].contains(at)), "{}: {at:#04x} is 0", row.name);
            for (other, same) in &shown {
                // nothing is compensated while charging: CAC is NAC, and FCAC is LMD
                let uncompensated = charging && [(0x0C, 0x10), (0x0E, 0x12)].contains(&(*at, *other));
                let alike = at < other && value == same && *value != 0 && !uncompensated;
                assert!(!alike, "{}: {at:#04x} and {other:#04x} are {value}", row.name);
            }
        }
    }
}

/// Saved bytes with a field that is 0 would not tell where that field stands.
#[test]
fn the_saved_bytes_of_the_rows_have_no_field_0() {
    let starts = definitions(&[text("Packs.antt")], "ℕ");
    for name in ["kept_discharging", "kept_charging"] {
        let bytes: Vec<u8> = numbers(&starts[name]).into_iter().map(|number| number as u8).collect();
        let gauge = saved::load(&bytes).expect("a gauge");
        let wide = [gauge.h, gauge.dcr, gauge.cycle_drain, i64::from(gauge.rest_count)];
        let pairs = [gauge.lmd, gauge.si_sixteenths, gauge.c, gauge.volt, gauge.temp, gauge.ar, gauge.cyct];
        let fields = wide.into_iter().chain(pairs.map(i64::from)).chain([gauge.mode, gauge.flags].map(i64::from));
        assert_eq!(fields.filter(|field| *field == 0).count(), 0, "{name}");
    }
}
