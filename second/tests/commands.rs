//! The commands as a user starts them. One test only: scripts are written and
//! started, which must not happen from several threads at once.

use std::fs::{self, File};
use std::os::unix::fs::PermissionsExt;
use std::path::{Path, PathBuf};
use std::process::{Command, Output};

use second::compare_text::log_case as text_case;
use second::compare_write::log_case;
use second::deal::deal;
use second::hex::{from_hex, to_hex};
use second::kinds_case::kinds_text;
use second::kinds_edges::edge_cases;
use second::replay::{reasons_text, replay_text, MAX_LOG};
use second::request_edges::edge_requests;
use second::rng::Rng;
use second::text_edges::edge_texts;
use second::text_log_edges::edge_logs;
use second::text_reader::{log_from_text, MAX_TEXT};
use second::text_writer::{text_from_log, MAX_TEXT_LOG};
use second::workload::{workload, WORKLOADS};

const SECOND: &str = env!("CARGO_BIN_EXE_second");

fn second(arguments: &[&str]) -> Output {
    Command::new(SECOND)
        .args(arguments)
        .output()
        .expect("the program starts")
}

fn stdout(output: &Output) -> String {
    String::from_utf8_lossy(&output.stdout).into_owned()
}

fn script(folder: &Path, name: &str, body: &str) -> String {
    let path = folder.join(name);
    fs::write(&path, format!("#!/bin/sh\n{body}\n")).expect("script written");
    fs::set_permissions(&path, fs::Permissions::from_mode(0o755)).expect("mode set");
    path.display().to_string()
}

fn fresh_folder(name: &str) -> PathBuf {
    let folder = Path::new(env!("CARGO_TARGET_TMPDIR")).join(name);
    let _ = fs::remove_dir_all(&folder);
    fs::create_dir_all(&folder).expect("folder made");
    folder
}

fn compare_equal(folder: &Path) {
    let good = script(folder, "good", &format!("exec '{SECOND}' replay"));
    let extra = folder.join("extra.log");
    fs::write(&extra, [0x40, 0x05]).expect("log written");
    let output = second(&["compare", &good, "1", "150", &extra.display().to_string()]);
    assert_eq!(stdout(&output), "151 passed, 0 failed\n");
    assert_eq!(output.status.code(), Some(0));
}

/// The output of a command with a file on its standard input.
fn on_file(command: &str, file: &Path) -> Output {
    let output = Command::new(SECOND)
        .arg(command)
        .stdin(File::open(file).expect("file opened"))
        .output()
        .expect("the program starts");
    assert_eq!(output.status.code(), Some(0));
    output
}

/// The text of a command with a log on its standard input.
fn on_log(command: &str, log: &Path) -> String {
    stdout(&on_file(command, log))
}

/// Example c of the specification, then releases of 0, 9, 12, 56 and 8.
fn texts_of_a_log(folder: &Path) {
    let path = folder.join("releases.log");
    let hex = "40 01 01 0A 00 01 02 14 00 03 00 03 09 03 0C 03 38 03 08";
    fs::write(&path, from_hex(hex).expect("hex digits")).expect("log written");
    let replay = "pool 64\n0 8\n0 28\n-17 0\n-17 0\n-17 0\n-17 0\n0 0\nend 7 records\n";
    assert_eq!(on_log("replay", &path), replay);
    let reasons = "0 0\n0 0\n1 0\n2 0\n4 0\n3 48\n0 0\n";
    assert_eq!(on_log("reasons", &path), reasons);
    assert_eq!(second(&["reasons", "1"]).status.code(), Some(2));
}

fn compare_reasons(folder: &Path) {
    let good = script(folder, "reasons", &format!("exec '{SECOND}' reasons"));
    let file = folder.join("releases.log").display().to_string();
    let output = second(&["compare-reasons", &good, "1", "150", &file]);
    assert_eq!(stdout(&output), "151 passed, 0 failed\n");
    assert_eq!(output.status.code(), Some(0));
    let body = format!("'{SECOND}' reasons | sed 's/^3 .*/3 0/'");
    let bad = script(folder, "no_place", &body);
    let output = second(&["compare-reasons", &bad, "1", "0", &file]);
    assert_eq!(output.status.code(), Some(1));
    let report = stdout(&output);
    assert!(report.starts_with("log 0 differs at line 6 "), "{report}");
    let log = fs::read(&file).expect("log read");
    assert!(report.contains(&to_hex(&log)) && report.contains(&reasons_text(&log)));
    assert_eq!(second(&["compare-reasons", &good]).status.code(), Some(2));
}

/// Gets of 1 and 37 bytes and a release, with kinds and without, and cases of
/// the greatest length and above it.
fn kinds_of_a_case(folder: &Path) {
    let path = folder.join("case");
    let text_of = |case: &[u8]| {
        fs::write(&path, case).expect("case written");
        on_log("kinds", &path)
    };
    let log = from_hex("5C 01 01 01 00 01 02 25 00 03 08").expect("hex digits");
    let expected = "pool 92\n0 8\n1 0\n0 0\nw 2 0 8\nend 3 records\n";
    assert_eq!(text_of(&[&[0x01, 0x54], &log[..]].concat()), expected);
    let expected = "pool 92\n0 8\n0 20\n0 0\nend 3 records\n";
    assert_eq!(text_of(&[&[0x00, 0x00], &log[..]].concat()), expected);
    assert_eq!(text_of(&[&[0x80, 0x00], &log[..]].concat()), "");
    let mut long = from_hex("FF FF FF FF 0F FF FF FF FF 0F 40").expect("hex digits");
    long.resize(10 + MAX_LOG, 0x05);
    assert_eq!(text_of(&long), "pool refused -17\n");
    long.push(0x05);
    assert_eq!(text_of(&long), "log too long\n");
    assert_eq!(second(&["kinds", "1"]).status.code(), Some(2));
}

fn compare_kinds_equal(folder: &Path) {
    let good = script(folder, "kinds", &format!("exec '{SECOND}' kinds"));
    let file = folder.join("extra.log").display().to_string();
    let output = second(&["compare-kinds", &good, "1", "60", &file, &file]);
    let total = edge_cases().len() + 60 + 4;
    assert_eq!(stdout(&output), format!("{total} passed, 0 failed\n"));
    assert_eq!(output.status.code(), Some(0));
    assert_eq!(second(&["compare-kinds", &good]).status.code(), Some(2));
}

/// A program that is wrong where create refuses.
fn compare_kinds_different(folder: &Path) {
    let body = format!("'{SECOND}' kinds | sed 's/^pool refused -17/pool 64/'");
    let bad = script(folder, "no_refusal", &body);
    let output = second(&["compare-kinds", &bad, "1", "0"]);
    assert_eq!(output.status.code(), Some(1));
    let report = stdout(&output);
    let cases = edge_cases();
    let refused = |case: &Vec<u8>| kinds_text(case) == "pool refused -17\n";
    let first = cases.iter().position(refused).expect("some are refused");
    let hex = to_hex(&cases[first]);
    let expected = format!(
        "case {first} differs at line 1 (exit status: 0)\ncase in hex:\n{hex}\n\
         expected:\npool refused -17\nprogram:\npool 64\n\n"
    );
    assert_eq!(report, expected);
}

/// A get of 10 bytes by task 1 into a buffer of 8 bytes, and its reply. A byte
/// more, and the request has no reply.
fn write_reply(folder: &Path) {
    let path = folder.join("request");
    let hex = "08000000 40000000 00000000 01000000 01000000 01000000 01000000 01000000
        01000000 01000000 0A000000 FFFFFFFF 00000000";
    let mut request = from_hex(hex).expect("hex digits");
    fs::write(&path, &request).expect("request written");
    let reply = b"0 5\n\x40\x01\x01\x0A\x00\x05\x06\x07";
    assert_eq!(on_file("write", &path).stdout, reply);
    request.push(0);
    fs::write(&path, &request).expect("request written");
    assert_eq!(on_file("write", &path).stdout, []);
    assert_eq!(second(&["write", "1"]).status.code(), Some(2));
}

fn compare_write_equal(folder: &Path) {
    let good = script(folder, "write", &format!("exec '{SECOND}' write"));
    let extra = folder.join("extra.log").display().to_string();
    let cut = folder.join("cut.log");
    fs::write(&cut, [0x40, 0x05, 0x03]).expect("log written");
    let cut = cut.display().to_string();
    let output = second(&["compare-write", &good, "1", "50", &cut, &extra, &cut]);
    let written = |index: &u64| log_case(&mut Rng::new(1, 1), &deal(1, *index)).is_some();
    let logs = (0..50).filter(written).count();
    assert!(logs < 50);
    let total = edge_requests().len() + 50 + logs + 1;
    assert_eq!(stdout(&output), format!("{total} passed, 0 failed\n"));
    assert_eq!(output.status.code(), Some(0));
    assert_eq!(second(&["compare-write", &good]).status.code(), Some(2));
    let missing = folder.join("missing.log").display().to_string();
    let output = second(&["compare-write", &good, "1", "0", &missing]);
    assert_eq!(output.status.code(), Some(2));
}

/// The report of a program that differs.
fn report_of_write(bad: &str, files: &[&str]) -> String {
    let arguments = [&["compare-write", bad, "1", "50"], files].concat();
    let output = second(&arguments);
    assert_eq!(output.status.code(), Some(1));
    stdout(&output)
}

/// A wrong code, and a wrong byte behind the log.
fn compare_write_different(folder: &Path) {
    let edges = edge_requests();
    let first = |test: fn(&[u8]) -> bool| {
        let found = edges.iter().position(|edge| test(&edge.reply()));
        found.expect("some reply is such")
    };
    let body = format!("'{SECOND}' write | LC_ALL=C sed '1s/^-33/-17/'");
    let report = report_of_write(&script(folder, "no_33", &body), &[]);
    let index = first(|reply| reply.starts_with(b"-33 "));
    let hex = to_hex(&edges[index].to_bytes());
    let expected = format!(
        "request {index} differs at byte 1 (exit status: 0)\nrequest in hex:\n{hex}\n\
         expected: -33 0\nprogram: -17 0\n"
    );
    assert_eq!(report, expected);
    let body = format!("'{SECOND}' write | LC_ALL=C tr '\\022' '\\023'");
    let report = report_of_write(&script(folder, "no_18", &body), &[]);
    let index = first(|reply| reply.contains(&18));
    let start = format!("request {index} differs at byte 24 ");
    assert!(report.starts_with(&start), "{report}");
}

/// A program that is wrong on the request of one log file only, and one that
/// is wrong on a very long request only.
fn compare_write_single_faults(folder: &Path) {
    let odd = folder.join("odd.log");
    fs::write(&odd, [0x45, 0x05]).expect("log written");
    let body = |test: &str| {
        format!(
            "cat > \"$0.$$\"\nif {test}; then echo wrong; else '{SECOND}' write < \"$0.$$\"; fi\n\
             rm \"$0.$$\""
        )
    };
    let test = "[ \"$(od -An -tu4 -N8 \"$0.$$\" | tr -s ' ')\" = ' 2 69' ]";
    let bad = script(folder, "no_odd", &body(test));
    let report = report_of_write(&bad, &[&odd.display().to_string()]);
    let index = edge_requests().len() + 100;
    let start = format!("request {index} differs at byte 0 ");
    assert!(report.starts_with(&start), "{report}");
    assert!(report.ends_with("expected: 0 2\nprogram: wrong\n"));
    let test = "[ $(wc -c < \"$0.$$\") -gt 65560 ]";
    let bad = script(folder, "no_long", &body(test));
    let report = report_of_write(&bad, &[]);
    assert!(
        report.contains(" more bytes\n") && report.len() < 2_500,
        "{report}"
    );
}

/// A text and its log, refused ones, and inputs of the greatest length and above.
fn text_form(folder: &Path) {
    let path = folder.join("input");
    let made = |command, input: &[u8]| {
        fs::write(&path, input).expect("input written");
        on_file(command, &path).stdout
    };
    let text = b"pool 64 # bytes\r\nget 1 010 limit 4\ntick";
    let log = b"\x40\x01\x01\x0A\x05\x05";
    assert_eq!(made("log-from-text", text), log);
    let canonical = b"pool 64\nget 1 10 limit 4\ntick\n";
    assert_eq!(made("text-from-log", log), canonical);
    let refused = b"line 2: missing number\n";
    assert_eq!(made("log-from-text", b"pool 64\nget 1"), refused);
    assert_eq!(made("text-from-log", &log[..3]), b"bad log at 1\n");
    let mut long = b"pool 64\ntick".to_vec();
    long.resize(MAX_TEXT, b'\n');
    assert_eq!(made("log-from-text", &long), b"\x40\x05");
    long.push(b'\n');
    assert_eq!(made("log-from-text", &long), b"text too long\n");
    let ticks = vec![5; MAX_TEXT_LOG + 1];
    let more = b"more than 4,096 records\n";
    assert_eq!(made("text-from-log", &ticks[1..]), more);
    assert_eq!(made("text-from-log", &ticks), b"log too long\n");
    assert_eq!(second(&["log-from-text", "1"]).status.code(), Some(2));
    assert_eq!(second(&["text-from-log", "1"]).status.code(), Some(2));
}

/// Both programs of the text form.
fn text_programs(folder: &Path) -> [String; 2] {
    ["log-from-text", "text-from-log"]
        .map(|command| script(folder, command, &format!("exec '{SECOND}' {command}")))
}

fn compare_text_equal(folder: &Path) {
    let [reader, writer] = text_programs(folder);
    let [extra, cut] = ["extra.log", "cut.log"].map(|name| folder.join(name).display().to_string());
    let output = second(&["compare-text", &reader, &writer, "1", "40", &extra, &cut]);
    let logs: Vec<Vec<u8>> = edge_logs()
        .into_iter()
        .chain((0..40).map(|index| deal(1, index)))
        .collect();
    let again = logs.iter().filter_map(|log| text_case(log.clone())).count();
    let total = edge_texts().len() + 40 + again + 1 + logs.len() + 2;
    assert_eq!(stdout(&output), format!("{total} passed, 0 failed\n"));
    assert_eq!(output.status.code(), Some(0));
    for wrong in [
        &["compare-text"][..],
        &["compare-text", &reader, &writer],
        &["compare-text", &reader, &writer, "1"],
        &["compare-text", &reader, &writer, "1", "x"],
        &["compare-text", &reader, "1", "0", &extra],
        &["compare-text", "/missing", &writer, "1", "0"],
    ] {
        assert_eq!(second(wrong).status.code(), Some(2), "{wrong:?}");
    }
}

/// The report of a pair of programs of which one differs.
fn report_of_text(reader: &str, writer: &str, rest: &[&str]) -> String {
    let output = second(&[&["compare-text", reader, writer, "1"], rest].concat());
    assert_eq!(output.status.code(), Some(1));
    stdout(&output)
}

/// A reader with a wrong reason, and a writer with a wrong word.
fn compare_text_different(folder: &Path) {
    let [reader, writer] = text_programs(folder);
    let body =
        format!("'{SECOND}' log-from-text | LC_ALL=C sed 's/: number too large/: missing number/'");
    let bad = script(folder, "no_large", &body);
    let report = report_of_text(&bad, &writer, &["0"]);
    let texts = edge_texts();
    let large = |text: &Vec<u8>| log_from_text(text).ends_with(b": number too large\n");
    let first = texts.iter().position(large).expect("some are refused");
    let hex = to_hex(&texts[first]);
    let expected = format!(
        "text {first} differs at byte 8 (exit status: 0)\ntext in hex:\n{hex}\n\
         expected: line 1: number too large\nprogram: line 1: missing number\n"
    );
    assert_eq!(report, expected);
    let body = format!("'{SECOND}' text-from-log | sed 's/^\\(poll .* \\)priority/\\1limit/'");
    let bad = script(folder, "no_poll", &body);
    let report = report_of_text(&reader, &bad, &["0"]);
    let logs = edge_logs();
    let polls = |log: &Vec<u8>| {
        let text = text_from_log(log);
        let mut lines = text.lines();
        lines.any(|line| line.starts_with("poll") && line.contains("priority"))
    };
    let first = logs.iter().position(polls).expect("some polls");
    let start = format!("log {first} differs at line ");
    assert!(report.starts_with(&start), "{report}");
    assert!(report.contains(&to_hex(&logs[first])));
}

fn compare_different(folder: &Path) {
    let body = format!("'{SECOND}' replay | sed 's/^w \\([0-9]*\\) -49/w \\1 -50/'");
    let bad = script(folder, "bad", &body);
    let output = second(&["compare", &bad, "1", "150"]);
    assert_eq!(output.status.code(), Some(1));
    let report = stdout(&output);
    let differs = |index: &u64| replay_text(&deal(1, *index)).contains(" -49 0\n");
    let first = (0..150).find(differs).expect("some log cancels");
    let log = deal(1, first);
    assert!(
        report.starts_with(&format!("log {first} differs at line ")),
        "{report}"
    );
    assert!(report.contains(&to_hex(&log)) && report.contains(&replay_text(&log)));
}

fn compare_other_faults(folder: &Path) {
    let silent = script(folder, "silent", "exit 0");
    assert_eq!(
        second(&["compare", &silent, "1", "5"]).status.code(),
        Some(1)
    );
    let killed = script(folder, "killed", &format!("'{SECOND}' replay\nkill -9 $$"));
    assert_eq!(
        second(&["compare", &killed, "1", "5"]).status.code(),
        Some(1)
    );
    let endless = script(folder, "endless", "while :; do echo pool 64; done");
    assert_eq!(
        second(&["compare", &endless, "1", "1"]).status.code(),
        Some(1)
    );
    let missing = folder.join("missing").display().to_string();
    assert_eq!(
        second(&["compare", &missing, "1", "5"]).status.code(),
        Some(2)
    );
}

fn check_stored(folder: &Path) {
    let stored = folder.join("stored");
    fs::create_dir_all(&stored).expect("folder made");
    let path = stored.display().to_string();
    assert_eq!(second(&["check", &path]).status.code(), Some(2));
    for index in 0..3 {
        let log = deal(3, index);
        fs::write(stored.join(format!("{index}.out")), replay_text(&log)).expect("text written");
        fs::write(stored.join(format!("{index}.log")), log).expect("log written");
    }
    let good = folder.join("good").display().to_string();
    let output = second(&["check", &path, &good]);
    assert_eq!(stdout(&output), "3 passed, 0 failed\n");
    let silent = folder.join("silent").display().to_string();
    assert_eq!(second(&["check", &path, &silent]).status.code(), Some(1));
    fs::write(stored.join("1.out"), "pool 64\n").expect("text written");
    fs::remove_file(stored.join("2.out")).expect("text removed");
    let output = second(&["check", &path]);
    assert!(stdout(&output).ends_with("1 passed, 2 failed\n"));
    assert_eq!(output.status.code(), Some(1));
}

/// Stored logs with their text forms: a good one, one that gives another log,
/// refused ones, and none.
fn check_text_forms(folder: &Path) {
    let stored = folder.join("text_forms");
    fs::create_dir_all(&stored).expect("folder made");
    let write = |name: &str, bytes: &[u8]| fs::write(stored.join(name), bytes).expect("written");
    for name in ["a", "b", "c"] {
        write(&format!("{name}.log"), b"\x40\x03\x08");
        write(&format!("{name}.out"), b"pool 64\n-17 0\nend 1 records\n");
    }
    write("b.txt", b"pool 64 # comment\n\nrelease 08");
    write("other.txt", b"not looked at");
    let path = stored.display().to_string();
    let good = folder.join("good").display().to_string();
    for arguments in [&["check", &path][..], &["check", &path, &good]] {
        assert_eq!(stdout(&second(arguments)), "3 passed, 0 failed\n");
    }
    for (text, fault) in [
        (&b"pool 64\nrelease 9"[..], "gives another log"),
        (b"pool 64\nrelease", "line 2: missing number"),
        (b"", "line 1: no pool line"),
        (&vec![b'#'; MAX_TEXT + 1], "text too long"),
    ] {
        write("c.txt", text);
        let output = second(&["check", &path]);
        let expected = format!("{path}/c.txt: {fault}\n2 passed, 1 failed\n");
        assert_eq!(stdout(&output), expected);
        assert_eq!(output.status.code(), Some(1));
    }
}

fn deal_and_count() {
    let output = second(&["deal", "9", "20"]);
    let lines: Vec<String> = (0..20)
        .map(|index| to_hex(&deal(9, index)) + "\n")
        .collect();
    assert_eq!(stdout(&output), lines.concat());
    assert!(stdout(&second(&["count", "9", "20"])).contains("20 logs\n"));
    assert!(stdout(&second(&["count-kinds", "9", "20"])).contains("20 cases\n"));
    assert_eq!(second(&["deal", "x", "20"]).status.code(), Some(2));
    assert_eq!(second(&[]).status.code(), Some(2));
}

fn workloads() {
    for name in WORKLOADS {
        let output = second(&["workload", name]);
        assert_eq!(Some(output.stdout), workload(name));
        assert_eq!(output.status.code(), Some(0));
    }
    assert_eq!(second(&["workload", "none"]).status.code(), Some(2));
}

/// Starts `second time` in the folder of the scripts.
fn time(folder: &Path, arguments: &[&str]) -> Output {
    Command::new(SECOND)
        .current_dir(folder)
        .arg("time")
        .args(arguments)
        .output()
        .expect("the program starts")
}

fn time_programs(folder: &Path) {
    script(folder, "once", "echo run >> runs\nexec cat");
    script(folder, "asked", "[ \"$1 $2\" = 'two words' ]");
    let output = time(folder, &["3", "extra.log", "./once", "./asked two words"]);
    assert_eq!(output.status.code(), Some(0));
    let text = stdout(&output);
    let lines: Vec<_> = text.lines().map(|line| line.split_once(' ')).collect();
    let [Some((first, "./once")), Some((second, "./asked two words"))] = lines[..] else {
        panic!("{text}");
    };
    assert!(first.parse::<u64>().is_ok() && second.parse::<u64>().is_ok());
    let runs = fs::read_to_string(folder.join("runs")).expect("runs noted");
    assert_eq!(runs.lines().count(), 3);
    for wrong in [
        &["3", "extra.log", "./asked one"][..],
        &["3", "extra.log", "./missing"],
        &["3", "missing.log", "./once"],
        &["3", "extra.log", " "],
        &["3", "extra.log"],
        &["0", "extra.log", "./once"],
        &["x", "extra.log", "./once"],
    ] {
        assert_eq!(time(folder, wrong).status.code(), Some(2), "{wrong:?}");
    }
}

#[test]
fn commands() {
    let folder = fresh_folder("commands");
    compare_equal(&folder);
    compare_different(&folder);
    compare_other_faults(&folder);
    texts_of_a_log(&folder);
    compare_reasons(&folder);
    kinds_of_a_case(&folder);
    compare_kinds_equal(&folder);
    compare_kinds_different(&folder);
    write_reply(&folder);
    compare_write_equal(&folder);
    compare_write_different(&folder);
    compare_write_single_faults(&folder);
    text_form(&folder);
    compare_text_equal(&folder);
    compare_text_different(&folder);
    check_stored(&folder);
    check_text_forms(&folder);
    deal_and_count();
    workloads();
    time_programs(&folder);
}
