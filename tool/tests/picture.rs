//! Times and names for people in `archive list` and `archive sheet`; pictures of archives, of logs, and of how often telegrams were received.
mod common;
use common::*;
use std::collections::HashMap;
use std::fs;
use std::io::Write;
use std::path::{Path, PathBuf};
use std::thread::sleep;
use std::time::Duration;

/// A folder with the archive of the sample, and names of two of its transmitters.
fn plant(name: &str) -> PathBuf {
    let dir = folder(name);
    run("collect --archive a", &dir, &sample()).with(0);
    fs::write(dir.join("names"), "txid,name\n0583A1C0,Gate <2>\nfef1b2c3,\"Switch, north\"\n").unwrap();
    dir
}

#[test]
fn iso_times() {
    let dir = plant("picture_times");
    let list = |words: &str| run(&format!("archive list a {words}"), &dir, b"").with(0).out;
    let first = "1000 KEPT D5080583A1C000C6";
    assert!(list("").starts_with(first));
    assert!(list("--times ms").starts_with(first));
    assert!(list("--times iso").starts_with("1970-01-01T00:00:01.000Z KEPT D5080583A1C000C6\n"));
    assert!(list("--times iso --rows csv").starts_with("time,answer,txid,telegram\n1970-01-01T00:00:01.000Z,KEPT,0583A1C0,D5080583A1C000C6\n"));
    assert!(list("--times iso --rows json").starts_with("{\"time\":\"1970-01-01T00:00:01.000Z\",\"answer\":\"KEPT\",\"txid\":"));
    assert_eq!(list("--from 1970-01-01T00:00:01.060Z --to 1970-01-01T00:00:01.120Z"), list("--from 1060 --to 1120"));
    assert_eq!(list("--from 1060 --to 1120").lines().count(), 2);
    assert_eq!(list("--from 1970-01-01T01:00:01.060+01:00 --to 1970-01-01T00:00:01.120Z"), list("--from 1060 --to 1120"));
    assert_eq!(list("--to 1970-01-01"), list("--to 86399999"));
    let sheet = run("archive sheet a --times iso", &dir, b"").with(0).out;
    assert!(sheet.lines().nth(1).unwrap().contains("1970-01-01T00:00:"), "{sheet}");
    run("archive list a --from yesterday", &dir, b"").with(2).says("--from: yesterday is wrong. Write ms since 1970, a day as 2026-11-16,");
    run("archive list a --times local", &dir, b"").with(2).says("Write ms or iso.");
    run("archive list a --rows tsv --times iso", &dir, b"").with(2).says("--times and --names need --rows text, csv or json");
}

#[test]
fn names() {
    let dir = plant("picture_names");
    let list = |words: &str| run(&format!("archive list a --count 1 --names names {words}"), &dir, b"").with(0).out;
    assert_eq!(list(""), "1000 KEPT D5080583A1C000C6 Gate <2>\n");
    assert_eq!(list("--rows csv"), "time,answer,txid,telegram,name\n1000,KEPT,0583A1C0,D5080583A1C000C6,Gate <2>\n");
    assert!(list("--rows json").ends_with(",\"telegram\":\"D5080583A1C000C6\",\"name\":\"Gate <2>\"}\n"));
    assert!(list("--rows csv --txid FEF1B2C3").ends_with(",\"Switch, north\"\n"));
    let named = |rows: &str| run(&format!("archive sheet a --names names --rows {rows}"), &dir, b"").with(0).out;
    assert!(named("text").lines().any(|l| l.starts_with("0583A1C0 ") && l.ends_with(" Gate <2>")));
    assert!(named("csv").starts_with("txid,kept,loose,earliest,latest,share,name\n"));
    fs::write(dir.join("names"), "0583A1C0,Gate\n0583A1C,Gate\n").unwrap();
    run("archive list a --names names", &dir, b"")
        .with(1)
        .says("names: line 2 is wrong. Write an ID of eight hexadecimal digits, a comma and a name.");
    run("archive list a --names none", &dir, b"").with(1).says("cannot read none");
}

#[test]
fn a_mark_for_each_row() {
    let dir = plant("picture_marks");
    for chosen in ["", "--txid 0583A1C0", "--from 1000 --to 1200", "--from 500000000"] {
        let rows = run(&format!("archive list a {chosen}"), &dir, b"").with(0).out;
        let page = run(&format!("archive picture a --names names {chosen}"), &dir, b"").with(0).out;
        let count = |text: &str| page.matches(text).count();
        let loose = rows.lines().filter(|l| l.contains(" LOOSE ")).count();
        assert!(loose > 0 || !chosen.is_empty());
        assert_eq!(count("class=\"row\"") + loose, rows.lines().count(), "{chosen}");
        assert_eq!(count("class=\"row loose\""), loose, "{chosen}");
        assert_eq!(count("<tr><td>"), rows.lines().count(), "{chosen}");
        for row in rows.lines() {
            let [time, answer, telegram] = row.split(' ').collect::<Vec<_>>()[..] else { panic!("{row}") };
            assert!(page.contains(&format!("<td>{time}</td><td>{answer}</td>")) && page.contains(&format!("<td>{telegram}</td>")), "{row}");
        }
        assert!(!page.contains("<script") && !page.contains("href") && !page.contains("src="), "it needs no other file");
    }
    let page = run("archive picture a --names names", &dir, b"").with(0).out;
    assert!(page.contains("Gate &lt;2&gt;") && !page.contains("Gate <2>"));
    let svg = run("archive picture a --svg", &dir, b"").with(0).out;
    assert!(svg.starts_with("<svg ") && svg.ends_with("</svg>\n") && page.contains("</svg>"));
}

#[test]
fn many_rows() {
    let dir = folder("picture_many");
    let log = log(60_000, 3);
    run("collect --archive a", &dir, log.as_bytes()).with(0);
    run("archive picture a", &dir, b"").with(1).says("more than 20000 rows are too many for a picture. Choose fewer by --from, --to or --txid.");
}

/// A picture that is higher than a screen has its times above the lanes too, and no label ends outside it.
#[test]
fn labels_of_times() {
    let dir = plant("picture_labels");
    fs::write(dir.join("log"), sample()).unwrap();
    for (words, tall) in
        [("picture log", true), ("picture log --to 1800", false), ("archive picture a", true), ("archive picture a --to 1800", false)]
    {
        let svg = run(&format!("{words} --svg"), &dir, b"").with(0).out;
        let labels: Vec<&str> = svg.lines().filter(|l| l.contains("text-anchor=\"middle\"")).collect();
        let lines = svg.lines().filter(|l| l.contains("stroke=\"#dddddd\"")).count();
        assert_eq!(labels.len(), if tall { 2 * lines } else { lines }, "{words}");
        assert_eq!(labels.iter().filter(|l| attribute(l, "y") < 16.0).count(), if tall { lines } else { 0 }, "{words}");
    }
    let day = 1_794_816_000_000_u64;
    fs::write(dir.join("day"), format!("level 1\n{day} D5080583A1C000C6\n{} D5080583A1C000C6\n", day + 900)).unwrap();
    let svg = run("picture day --svg", &dir, b"").with(0).out;
    let last = svg.lines().rfind(|l| l.contains("text-anchor=\"middle\"")).unwrap();
    assert!(last.contains(">08:00:00.900<") && attribute(last, "x") + 42.0 <= 1_260.0, "{last}");
    fs::write(dir.join("heard"), (0..40).map(|n| format!("1000,{n:08X},0,1\n")).collect::<String>()).unwrap();
    assert_eq!(run("heard heard --picture", &dir, b"").with(0).out.matches(">1970-W01</text>").count(), 2);
}

#[test]
fn what_is_not_drawn_is_told() {
    let dir = plant("picture_told");
    fs::write(dir.join("log"), sample()).unwrap();
    let says = |words: &str, text: &str| run(words, &dir, b"").with(0).says(text).out;
    says("picture log", "mooringeye: 10 BAD lines are not drawn. 1 of them end in CR LF: `tr -d '\\r'` takes the CR away\n");
    assert_eq!(run("picture /dev/stdin --level 1", &dir, b"x\n1000 D5080583A1C000C6\n").with(0).err, "mooringeye: 1 BAD lines are not drawn\n");
    let span = "the picture is empty: the logs have receptions from 1000 (1970-01-01T00:00:01.000Z) to 60290 (1970-01-01T00:01:00.290Z), and";
    assert!(says("picture log --from 2026-11-16", span).contains("RORG and data: none."));
    says("archive picture a --from 2026-11-16", "the picture is empty: no row is there, or none that --from, --to and --txid choose");
    assert_eq!(run("picture log --from 2026-11-16 --quiet", &dir, b"").with(0).err, "");
    // A log with CR LF, an empty one, a packed one.
    fs::write(dir.join("crlf"), String::from_utf8(sample()).unwrap().replace('\n', "\r\n")).unwrap();
    says("picture crlf --level 1", "mooringeye: 326 BAD lines are not drawn. 326 of them end in CR LF: ");
    fs::write(dir.join("none"), "").unwrap();
    says("picture none --level 1", "the picture is empty: the logs have no reception");
    fs::write(dir.join("log.gz"), b"\x1f\x8b\x08\x00rest\n").unwrap();
    for level in ["", "--level 1"] {
        run(&format!("picture log.gz {level}"), &dir, b"").with(1).says("log.gz: packed. Unpack it first; for gzip, write <(zcat log.gz).");
    }
    run("collect --log log.gz", &dir, b"").with(2).says("log.gz looks packed. Unpack it first; for gzip, by `zcat FILE | mooringeye collect ..`.");
    run("picture log --from 2000 --to 1000", &dir, b"").with(2).says("--from 1970-01-01T00:00:02.000Z is after --to 1970-01-01T00:00:01.000Z.");
    run("archive list a --txid 583A1C0", &dir, b"").with(2).says("the ID of a transmitter: 583A1C0 is wrong. Write eight hexadecimal digits.");
}

/// The answers of a log's lines in a span, as `picture` names them, by `collect`; and its BAD lines.
fn answers(dir: &Path, log: &[u8], from: u64, to: u64) -> (HashMap<&'static str, usize>, usize) {
    let rows = run("collect", dir, log).with(0).out;
    let (mut counts, mut bad) = (HashMap::new(), 0);
    for row in rows.lines().filter(|row| !row.starts_with("RECEIVED")) {
        let mut words = row.split(' ');
        let Some(time) = words.next().and_then(|t| t.parse::<u64>().ok()) else {
            bad += 1;
            continue;
        };
        let answer = match (words.next().unwrap(), words.next()) {
            ("KEPT", _) => "kept",
            ("COPY", _) => "copy",
            ("LOOSE", _) => "loose",
            (_, Some("7")) => "late",
            _ => "damaged",
        };
        *counts.entry(answer).or_insert(0) += usize::from((from..=to).contains(&time));
    }
    (counts, bad)
}

#[test]
fn a_mark_for_each_reception() {
    let dir = plant("picture_log");
    fs::write(dir.join("log"), sample()).unwrap();
    for (chosen, from, to) in [("", 0, u64::MAX), ("--from 900 --to 1800", 900, 1_800), ("--from 500000000", 500_000_000, u64::MAX)] {
        let page = run(&format!("picture log --names names {chosen}"), &dir, b"").with(0).out;
        let count = |text: &str| page.matches(text).count();
        let (expected, bad) = answers(&dir, &sample(), from, to);
        for (answer, marks) in &expected {
            assert_eq!(count(&format!("class=\"reception {answer}\"")), *marks, "{answer} {chosen}");
        }
        assert_eq!(expected.len(), 5, "the sample has every answer");
        assert_eq!(count("<tr><td>"), expected.values().sum::<usize>(), "{chosen}");
        assert!(page.contains(&format!("BAD lines of the whole log: {bad}.")));
        assert!(!page.contains("<script") && !page.contains("href") && !page.contains("src="), "it needs no other file");
    }
    let page = run("picture log --names names", &dir, b"").with(0).out;
    assert!(page.contains("Gate &lt;2&gt;") && !page.contains("Gate <2>"));
    // For one transmitter: nothing damaged, because a damaged reception has no transmitter.
    let page = run("picture log --txid 0583A1C0", &dir, b"").with(0).out;
    assert!(!page.contains("reception damaged") && page.contains("Transmitters: 1."));
    let svg = run("picture log --svg --to 1800", &dir, b"").with(0).out;
    assert!(svg.starts_with("<svg ") && svg.ends_with("</svg>\n"));
}

/// A number of an element: `x="12.5"`.
fn attribute(element: &str, name: &str) -> f64 {
    element.split_once(&format!(" {name}=\"")).unwrap().1.split('"').next().unwrap().parse().unwrap()
}

#[test]
fn the_gate_explains_itself() {
    let dir = folder("picture_gate");
    fs::write(dir.join("log"), sample()).unwrap();
    let svg = run("picture log --svg --from 1000 --to 1200 --txid 0583A1C0", &dir, b"").with(0).out;
    let all = |class: &str| svg.lines().filter(|l| l.contains(&format!("class=\"{class}\""))).collect::<Vec<_>>();
    // 1000 pixels are 200 ms, from pixel 230 on.
    let ms = |x: f64| ((x - 230.0) / 5.0).round() as u64;
    let spans = |class| all(class).iter().map(|l| (ms(attribute(l, "x")), ms(attribute(l, "x") + attribute(l, "width")))).collect::<Vec<_>>();
    assert_eq!(all("reception kept").iter().map(|l| ms(attribute(l, "x") + 2.0)).collect::<Vec<_>>(), [0, 60, 120]);
    assert_eq!(all("reception copy").iter().map(|l| ms(attribute(l, "cx"))).collect::<Vec<_>>(), [6]);
    assert_eq!(spans("window sent"), [(0, 40), (60, 100), (120, 160)]);
    assert_eq!(spans("window open"), [(0, 100), (60, 160), (120, 200)], "the last one is cut at the picture's end");
    // The first and the third opening are the same telegram, the second is another one.
    let fill = |l: &str| l.split_once(" fill=\"").unwrap().1[..7].to_string();
    let fills: Vec<String> = all("reception kept").iter().map(|l| fill(l)).collect();
    assert!(fills[0] == fills[2] && fills[0] != fills[1]);
    assert_eq!(all("window open").iter().map(|l| fill(l)).collect::<Vec<_>>(), fills);
}

/// Every COPY is in the shade of its telegram's colour, over the lanes of its transmitter.
#[test]
fn copies_stand_in_the_shade() {
    let dir = folder("picture_shade");
    fs::write(dir.join("log"), log(2_000, 71)).unwrap();
    let svg = run("picture log --svg", &dir, b"").with(0).out;
    let colour = |l: &str, name: &str| l.split_once(&format!(" {name}=\"#")).unwrap().1[..6].to_string();
    let windows: Vec<(f64, f64, f64, f64, String)> = svg
        .lines()
        .filter(|l| l.contains("class=\"window open\""))
        .map(|l| (attribute(l, "x"), attribute(l, "width"), attribute(l, "y"), attribute(l, "height"), colour(l, "fill")))
        .collect();
    let copies: Vec<&str> = svg.lines().filter(|l| l.contains("class=\"reception copy\"")).collect();
    assert!(copies.len() > 300 && windows.len() > 300);
    for copy in copies {
        let (x, y, stroke) = (attribute(copy, "cx"), attribute(copy, "cy"), colour(copy, "stroke"));
        let is_shade = |(left, width, top, height, fill): &(f64, f64, f64, f64, String)| {
            (left - 0.1..=left + width + 0.1).contains(&x) && (*top..=top + height).contains(&y) && *fill == stroke
        };
        assert!(windows.iter().any(is_shade), "{copy}");
    }
}

#[test]
fn lanes_by_repeater_level() {
    let dir = folder("picture_levels");
    // The press at 1500 of the sample: the original and its copies by two repeaters.
    fs::write(dir.join("log"), "1500 F650FEF1B2C330DA\n1512 F650FEF1B2C331DB\n1524 F650FEF1B2C332DC\n").unwrap();
    run("picture log", &dir, b"").with(2).says("log: without --level the first line must be `level 0`, `level 1` or `level 2`");
    let svg = run("picture log --svg --level 1", &dir, b"").with(0).out;
    let labels: Vec<&str> = ["original", "level 1", "level 2"].into_iter().filter(|l| svg.contains(&format!(">{l}</text>"))).collect();
    assert_eq!((labels.len(), svg.matches("class=\"lane\"").count()), (3, 3));
    // Logs that follow each other are one: the second telegram is still open.
    fs::write(dir.join("old"), "level 1\n1500 F650FEF1B2C330DA\n").unwrap();
    fs::write(dir.join("new"), "level 1\n1512 F650FEF1B2C331DB\n").unwrap();
    assert!(run("picture old new", &dir, b"").with(0).out.contains("class=\"reception copy\""));
    assert!(run("picture new", &dir, b"").with(0).out.contains("class=\"reception kept\""));
    run("picture old --level 2", &dir, b"").with(2).says("the first line of old says level 1, but the level is 2");
    run("picture none", &dir, b"").with(1).says("cannot open none");
    fs::write(dir.join("many"), log(30_000, 72)).unwrap();
    run("picture many", &dir, b"").with(1).says("more than 20000 receptions are too many for a picture. Choose fewer by --from, --to or --txid.");
    assert!(run("picture many --to 1010000", &dir, b"").with(0).out.contains("class=\"reception kept\""));
}

/// The first line of a pipe may come in pieces, with `--level` and without; the last one has no newline.
#[test]
fn a_log_from_a_slow_pipe() {
    let dir = folder("picture_pipe");
    let parts = ["l", "evel 1", "\n15", "00 F650FEF1B2C330DA\n1512 F650FEF1B2C331DB\n1524 F6"];
    fs::write(dir.join("log"), parts.concat()).unwrap();
    for words in ["", "--level 1"] {
        let mut running = start(tool(&format!("picture /dev/stdin {words}"), &dir));
        let mut stdin = running.child.stdin.take().unwrap();
        for part in parts {
            stdin.write_all(part.as_bytes()).unwrap();
            sleep(Duration::from_millis(200)); // by then it was read
        }
        drop(stdin);
        let page = running.end().with(0).out;
        assert!(page.contains("BAD lines of the whole log: 0.") && page.contains("class=\"reception copy\""), "{words}");
        assert!(page == run(&format!("picture log {words}"), &dir, b"").with(0).out, "{words}");
    }
    // A line that is longer than the longest is not waited for, and one that never ends has no level.
    run("picture /dev/stdin", &dir, "x".repeat(1_000).as_bytes()).with(2).says("without --level the first line must be");
    run("picture /dev/stdin", &dir, b"level 1").with(2).says("without --level the first line must be");
    assert!(run("picture /dev/stdin --level 1", &dir, b"level 1").with(0).out.contains("BAD lines of the whole log: 0."));
}

#[test]
fn a_bar_for_each_transmitter() {
    let dir = folder("picture_heard");
    // Two transmitters in weeks 1 and 2 of 1970, a third only in week 2.
    let (one, two) = (1_000, 7 * 86_400_000);
    let lines = [(one, "0583A1C0", 2), (two, "0583A1C0", 1), (one, "FEF1B2C3", 0), (two, "FEF1B2C3", 0), (two, "01020304", 0), (two, "01020304", 3)];
    let text: String = lines.iter().map(|(opened, txid, copies)| format!("{opened},{txid},0,{copies}\n")).collect();
    fs::write(dir.join("heard"), format!("time,txid,level,copies\n{text}")).unwrap();
    fs::write(dir.join("names"), "FEF1B2C3,\"Far <away>, north\"\n").unwrap();
    let page = run("heard heard --names names --picture", &dir, b"").with(0).out;
    let listed = run("heard heard --rows csv", &dir, b"").with(0).out;
    let count = |text: &str| page.matches(text).count();
    assert_eq!((count("class=\"share\""), count("class=\"week\"")), (3, 5));
    assert_eq!(count("<tr><td>"), listed.lines().count() - 1, "the table has the lines of `heard`");
    // The one that needs a repeater comes first, with the longest bar.
    let widths: Vec<f64> = page.lines().filter(|l| l.contains("class=\"share\"")).map(|l| attribute(l, "width")).collect();
    assert_eq!(widths, [180.0, 90.0, 1.0]);
    let order: Vec<usize> = ["FEF1B2C3", "01020304", "0583A1C0"].iter().map(|id| page.find(&format!(">{id}</tspan>")).unwrap()).collect();
    assert!(order.is_sorted() && page.contains("Far &lt;away&gt;, north"));
    assert!(!page.contains("<script") && !page.contains("href") && !page.contains("src="), "it needs no other file");
    run("heard heard --picture --rows csv", &dir, b"").with(2).says("--picture and --rows cannot be given together");
    let many: String = (0..20_001).map(|n| format!("1000,{n:08X},0,1\n")).collect();
    fs::write(dir.join("many"), many).unwrap();
    run("heard many --picture", &dir, b"").with(1).says("are too many for a picture");
}
