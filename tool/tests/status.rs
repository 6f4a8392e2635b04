//! `mooringeye heard`, `mooringeye status` and `collect --metrics`.
mod common;
use common::*;
use std::fs;
use std::os::unix::fs::PermissionsExt;

#[test]
fn edge_of_reach() {
    let dir = folder("heard");
    // Two weeks: 2026-11-16 is a Monday.
    let week = 1_794_787_200_000_u64;
    let lines = [(week - 1, "01020304", 0), (week, "01020304", 0), (week + 1, "01020304", 3), (week + 2, "01020304", 2), (week, "0A0B0C0D", 4)];
    let text: String = lines.iter().map(|(time, id, copies)| format!("{time},{id},1,{copies}\n")).collect();
    fs::write(dir.join("a"), format!("opened,txid,level,copies\n{text}")).unwrap();
    fs::write(dir.join("b"), format!("time,txid,level,copies\n{week},0A0B0C0D,0,7\n")).unwrap();
    fs::write(dir.join("names"), "0A0B0C0D,Gate\n").unwrap();
    let heard = |words: &str| run(&format!("heard {words}"), &dir, b"").with(0).out;
    let expected = "txid,week,telegrams,once,share,median,least\n01020304,all,4,2,0.500,1,0\n01020304,2026-W46,1,1,1.000,0,0\n\
                    01020304,2026-W47,3,1,0.333,2,0\n0A0B0C0D,all,2,0,0.000,5.5,4\n0A0B0C0D,2026-W47,2,0,0.000,5.5,4\n";
    assert_eq!(heard("a b --rows csv"), expected);
    let printed = heard("a b");
    let words: Vec<String> = printed.lines().map(|l| l.split_ascii_whitespace().collect::<Vec<_>>().join(",")).collect();
    assert_eq!(words.join("\n") + "\n", expected);
    assert!(heard("b --names names --rows csv").ends_with(",7,7,Gate\n"));
    assert_eq!(heard("b --names names").lines().filter(|l| l.ends_with(" Gate")).count(), 2);
    for wrong in
        ["x", "1,01020304,1", "1,01020304,16,0", "1,0102030,1,0", "1,01020304,1,65536", "1,01020304,1,0,2", "1,01020304,1,0,0,0", "1,0,1,0,1", ""]
    {
        fs::write(dir.join("c"), format!("1,01020304,1,0\n{wrong}\n")).unwrap();
        run("heard c", &dir, b"").with(1).says("c: line 2 is wrong. Write opened,txid,level,copies,interrupted.");
    }
    // For a telegram that was open while the collector was stopped, it is not known how often it was received.
    fs::write(dir.join("d"), "opened,txid,level,copies,interrupted\n1,01020304,0,0,1\n2,01020304,0,3,0\n").unwrap();
    let ran = run("heard d --rows csv", &dir, b"").with(0).says("1 telegrams are left out");
    assert!(ran.out.contains("\n01020304,all,1,0,0.000,3,3\n"), "{}", ran.out);
    run("heard none", &dir, b"").with(1).says("cannot open none");
    fs::write(dir.join("e"), b"\xff\xfe\n").unwrap();
    run("heard e", &dir, b"").with(1).says("e: line 1 is wrong.");
    run("heard a --rows json", &dir, b"").with(2);
    run("heard", &dir, b"").with(2).says("Write `mooringeye heard FILE..`.");
}

#[test]
fn status_of_the_sample() {
    let dir = folder("status");
    let ran = run("collect --state s --archive a-#.arc --blocks 1 --out rows", &dir, &sample()).with(0);
    let totals = ran.err.lines().last().unwrap().strip_prefix("mooringeye: ").unwrap().to_string();
    let before = fs::read(dir.join("s")).unwrap();
    let text = run("status --state s", &dir, b"").with(0).out;
    assert!(text.contains("lines taken       326\n") && text.contains(&totals), "{text}");
    assert!(text.contains(&format!("standard input, {} bytes taken", sample().len())), "{text}");
    assert!(
        text.contains("a-#.arc, file ") && text.contains(&format!("rows file         {} bytes", fs::read(dir.join("rows")).unwrap().len())),
        "{text}"
    );
    let json = run("status --state s --json", &dir, b"").with(0).out;
    let number = |name: &str| -> u64 {
        let behind = &json[json.find(&format!("\"{name}\":")).unwrap() + name.len() + 3..];
        behind.split(|c: char| !c.is_ascii_digit()).next().unwrap().parse().unwrap()
    };
    let words: Vec<&str> = totals.split(' ').collect();
    for (name, at) in [("received", 1), ("kept", 3), ("copies", 5), ("loose", 7), ("damaged", 9), ("late", 11)] {
        assert_eq!(number(name).to_string(), words[at], "{name}");
    }
    assert_eq!(number("lines"), 326);
    assert!(json.contains("\"age_ms\":null") && json.ends_with("}\n"), "the sample's times are no dates: {json}");
    let file = number("file");
    let rows = run(&format!("archive list a-{file}.arc"), &dir, b"").with(0).out;
    assert_eq!(number("rows") as usize, rows.lines().count());
    assert_eq!(fs::read(dir.join("s")).unwrap(), before, "nothing is changed");
}

/// The text in quotes before a colon.
fn members(json: &str) -> Vec<&str> {
    json.match_indices("\":").map(|(end, _)| &json[json[..end].rfind('"').unwrap() + 1..end]).collect()
}

#[test]
fn every_member_and_metric_is_documented() {
    let dir = folder("status_documented");
    fs::write(dir.join("log"), sample()).unwrap();
    run("collect --state s --archive a --out rows --log log --metrics m", &dir, b"").with(0);
    let formats = fs::read_to_string(root().join("docs/FORMATS.md")).unwrap();
    let section = formats.split("\n## ").find(|s| s.starts_with("Status, metrics, heard and names")).unwrap();
    let json = run("status --state s --json", &dir, b"").with(0).out;
    let metrics = fs::read_to_string(dir.join("m")).unwrap();
    let names = members(&json).into_iter().chain(metrics.lines().filter_map(|l| l.strip_prefix("# TYPE ")).map(|l| l.split(' ').next().unwrap()));
    let names: Vec<&str> = names.collect();
    assert_eq!(names.len(), 20 + 7, "{names:?}");
    for name in &names {
        assert!(section.contains(&format!("`{name}`")), "{name}");
    }
    for name in section.split('`').filter(|word| word.starts_with("mooringeye_")) {
        assert!(names.contains(&name), "{name} is documented and not there");
    }
}

#[test]
fn status_tells_open_telegrams_and_ages() {
    let dir = folder("status_open");
    let now = std::time::SystemTime::now().duration_since(std::time::UNIX_EPOCH).unwrap().as_millis() as u64 - 60_000;
    let log = format!("level 1\n{now} D5080583A1C000C6\n{} D5080583A1C000C6\n{} D5080583A1C000C6\n{} F650FEF1B2C330DA\n", now + 1, now + 2, now + 3);
    run("collect --state s", &dir, log.as_bytes()).with(0);
    let text = run("status --state s", &dir, b"").with(0).out;
    assert!(text.contains("open telegrams    2, heard again 2, 0 times\n") && text.contains(" s ago\n"), "{text}");
    let json = run("status --state s --json", &dir, b"").with(0).out;
    assert!(json.contains("\"open\":[2,0]") && !json.contains("\"age_ms\":null"), "{json}");
    // Another file, and a clock that is ahead, as if local times were taken for UTC.
    fs::write(dir.join("long"), vec![0; 1 << 20]).unwrap();
    run("status --state long", &dir, b"").with(3).says("long: damaged: 1048576 bytes, expected 4096. The file was not changed.");
    for (seconds, text) in
        [(-90, ", 1 min 3"), (-7_260, ", 2 h 1 min ago\n"), (-180_000, ", 2 d 2 h ago\n"), (3_660, " ahead of this computer's clock\n")]
    {
        let log = format!("level 1\n{} D5080583A1C000C6\n", now + 60_000 + 1_000 * seconds as u64);
        run("collect --state t --new-state", &dir, log.as_bytes()).with(0);
        let text_now = run("status --state t", &dir, b"").with(0).out;
        assert!(text_now.contains(text), "{text_now}");
    }
    let mut bytes = fs::read(dir.join("s")).unwrap();
    bytes[20] ^= 1;
    fs::write(dir.join("s"), bytes).unwrap();
    run("status --state s", &dir, b"").with(3).says("s: damaged: its bytes are not those of a state. The file was not changed.");
    run("status --state none", &dir, b"").with(1);
    run("status", &dir, b"").with(2).says("Write `mooringeye status --state FILE`.");
}

#[test]
fn metrics() {
    let dir = folder("metrics");
    run("collect --state s --archive a --metrics m.prom", &dir, &sample()).with(0);
    let text = fs::read_to_string(dir.join("m.prom")).unwrap();
    let json = run("status --state s --json", &dir, b"").with(0).out;
    let value = |name: &str| text.lines().find_map(|l| l.strip_prefix(&format!("mooringeye_{name} "))).unwrap().to_string();
    assert_eq!(value("lines_total"), "326");
    for (name, metric) in [
        ("received", "receptions_total"),
        ("kept", "answers_total{answer=\"KEPT\"}"),
        ("loose", "answers_total{answer=\"LOOSE\"}"),
        ("rows", "archive_rows"),
    ] {
        assert!(json.contains(&format!("\"{name}\":{}", value(metric))), "{name}: {json} {text}");
    }
    for line in text.lines().filter(|l| !l.starts_with('#')) {
        let name = line.split(['{', ' ']).next().unwrap();
        assert!(text.contains(&format!("# TYPE {name} ")) && text.contains(&format!("# HELP {name} ")), "{line}");
    }
    assert!(!dir.join("m.prom.new").exists());
    // node_exporter is another user.
    let ran = std::process::Command::new("sh")
        .args(["-c", "umask 077; \"$0\" collect --metrics n.prom --quiet", env!("CARGO_BIN_EXE_mooringeye")])
        .current_dir(&dir)
        .stdin(fs::File::open(root().join("samples/plant.txt")).unwrap())
        .output()
        .unwrap();
    assert!(ran.status.success());
    assert_eq!(fs::metadata(dir.join("n.prom")).unwrap().permissions().mode() & 0o777, 0o644);
    // A collector continues if they can't be written, and reports that once.
    let ran = run("collect --sync row --metrics none/m", &dir, &sample()).with(0);
    assert_eq!(ran.out, sample_expected());
    assert_eq!(ran.err.matches("cannot write the metrics none/m").count(), 1, "{}", ran.err);
}
