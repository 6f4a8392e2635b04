//! `mooringeye plan`, `site`, `read`, `build` and `version`: figures of the papers, and refusals in words.
mod common;
use common::*;

fn out(words: &str) -> String {
    run(words, &root(), b"").with(0).out
}

#[test]
fn plans() {
    assert_eq!(out("plan standard 0 1000 --draw 7"), "slot  0:     0 to  1000 us\nslot  1:  1000 to  2000 us\nslot 27: 27000 to 28000 us\n");
    assert_eq!(out("plan standard 0 1000 --draw 187"), out("plan standard 0 1000 --draw 7"), "document 01 has 180 of them");
    assert_eq!(out("plan paused 0 1000 --count 2").lines().count(), 2);
    assert_eq!(out("plan paused 0 1000").lines().count(), 3);
    assert_eq!(out("plan standard 1 15000"), "slot 10: 10000 to 25000 us\nslot 25: 25000 to 40000 us\n");
    run("plan standard 0 9001", &root(), b"").with(1).says("refused with 9: no lawful plan");
    run("plan compressed 2 1", &root(), b"").with(1).says("refused with 9");
    for words in ["plan standard 3 1", "plan standard 0 0", "plan standard 0 65536", "plan standard 0 1 --count 2"] {
        run(words, &root(), b"").with(2).says("refused with 10: an argument is out of its range");
    }
    for words in ["plan other 0 1", "plan standard 0", "plan standard x 1", "plan standard 0 1 --draw x"] {
        run(words, &root(), b"").with(2);
    }
}

#[test]
fn sites() {
    let site = |text: &str| run("site", &root(), text.as_bytes());
    assert_eq!(site("# two\nstandard 1 1999 10 20\n\nstandard 1 1999 12 22 255\n").with(0).out, "accepted: 2 repeaters\n");
    assert_eq!(site("").with(0).out, "accepted: 0 repeaters\n");
    site("standard 1 1999 10 20\nstandard 1 1999 11 22").with(1).says("repeater 0 (line 1) and repeater 1 (line 2): refused with 19");
    site("standard 1 1999 10 20\n\nstandard 1 1999 10 30\n").with(1).says("repeater 1 (line 3): refused with 18");
    site(&"standard 0 1 0 1 20\n".repeat(33)).with(2).says("refused with 10");
    site("standard 1 1999 10\n").with(1).says("line 1 of standard input");
}

#[test]
fn telegrams() {
    assert_eq!(
        out("read D50901020304 80FE".replace("4 8", "48").as_str()),
        "RORG   D5\nDATA   09\nTXID   01020304\nSTATUS 80 (level 0, flags 0, CRC)\n"
    );
    assert_eq!(
        out("read A6A500000008F1F2F3F4010203040027"),
        "RORG   A5\nDATA   00000008\nDESTID F1F2F3F4\nTXID   01020304\nSTATUS 00 (level 0, flags 0, sum)\n"
    );
    assert_eq!(out("build A5 00000008 01020304"), "A5000000080102030400B7\n");
    assert_eq!(out("build A5 00000008 01020304 --to F1F2F3F4"), "A6A500000008F1F2F3F4010203040027\n");
    assert_eq!(out("build D5 09 01020304 --status 80"), "D5090102030480FE\n");
    for (hex, why) in [
        ("D5090102030400E7", "refused with 2: HASH is wrong, the sum"),
        ("D5090102030480FF", "refused with 13"),
        ("00", "refused with 1: the length is wrong"),
    ] {
        run(&format!("read {hex}"), &root(), b"").with(1).says(why);
    }
    run("build D2 00112233445566778899 01020304 --to 00000000", &root(), b"").with(1).says("refused with 5");
    run("build A6 09 01020304", &root(), b"").with(2).says("refused with 10");
    run("build D5 0 01020304", &root(), b"").with(2);
}

#[test]
fn erp2_telegrams() {
    assert_eq!(out("read --erp2 0501020304AA"), "short form\nORIGINATOR 01020304\nDATA       AA\n");
    let built = out("build --erp2 2 15 01020304 AABB --to 0A0B0C0D --subtype C5 --hops 1 --optional FF");
    assert_eq!(
        out(&format!("read --erp2 {built}")),
        "long form\nCONTROL    2\nTYPE       15\nHOPS       1\nOPTIONAL   FF\nSUBTYPE    C5\nORIGINATOR 01020304\nTO         0A0B0C0D\nDATA       AABB\n"
    );
    run("read --erp2 00", &root(), b"").with(1).says("refused with 1");
    run("build --erp2 5 0 01020304 AABB", &root(), b"").with(1).says("refused with 14");
}

#[test]
fn version() {
    assert_eq!(out("version"), "mooringeye 1.0.0, library 1.0.0\n");
}
