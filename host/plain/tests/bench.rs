//! The bench's line protocol, spoken to the program itself.

use std::io::Write;
use std::process::{Command, Stdio};

/// What the program prints for a script, what it says on standard error, and its exit status.
fn play(script: &str) -> (String, String, i32) {
    let mut program = Command::new(env!("CARGO_BIN_EXE_plain_bench"))
        .stdin(Stdio::piped())
        .stdout(Stdio::piped())
        .stderr(Stdio::piped())
        .spawn()
        .unwrap();
    // A program that met a bad line reads no further.
    let _ = program.stdin.take().unwrap().write_all(script.as_bytes());
    let done = program.wait_with_output().unwrap();
    let text = |bytes| String::from_utf8(bytes).unwrap();
    (text(done.stdout), text(done.stderr), done.status.code().unwrap())
}

fn answers(script: &str) -> Vec<String> {
    let (out, err, status) = play(script);
    assert_eq!((err.as_str(), status), ("", 0));
    assert!(out.is_empty() || out.ends_with('\n'));
    out.lines().map(str::to_string).collect()
}

/// The answers without the digests of K record, H and room.
fn brief(script: &str) -> Vec<String> {
    answers(script).iter().map(|line| line.split(" k=").next().unwrap().to_string()).collect()
}

/// The digest by its definition, in plain 128-bit arithmetic.
fn digest(bytes: &[u8]) -> String {
    let by = |factor: u128| bytes.iter().fold(0, |sum, &byte| (sum * factor + u128::from(byte) + 1) % 0x7fff_ffff);
    format!("{:08x}{:08x}", by(257), by(65599))
}

#[test]
fn the_first_group() {
    let script =
        "# comment\n\nrstr 000000026162ff\nrstr -\nwstr 6162 ee*7\nwstr 6162 -\nrmpint 0000000180\nrmpint 00000000\n\
                  rmpint 0000000100\nwmpint ff80 00*5";
    let wrote = digest(&[0, 0, 0, 2, 0x61, 0x62, 0xee]);
    let mpint = digest(&[0, 0, 0, 1, 0x80]);
    let expected = [
        "0 4:6162 6:ff",
        "12 0:- 0:-",
        &format!("0 6 out=7:{wrote}"),
        "5 0 out=0:0000000000000000",
        "0 -1 4:80 5:-",
        "0 0 4:- 4:-",
        "22 0 0:- 0:-",
        &format!("0 5 out=5:{mpint}"),
    ];
    assert_eq!(answers(script), expected);
}

#[test]
fn kexinit_and_its_view() {
    // The second list is "ab,c" and the third ",".
    let payload = "14*17";
    let lists = "000000000000000461622c63000000012c00000000000000000000000000000000000000000000000000000000";
    let cookie = "14".repeat(17);
    let payload_hex = format!("{cookie}{lists}0500000102");
    let script = format!(
        "next\nopen {payload} 1\nnext\nopen {payload_hex} 2\nnext\nnames {payload_hex} 1\nnext\nnext\nnext\n\
         open {payload_hex} 3\nnext\nnext\nnames {payload_hex} 2\nnames {payload_hex} 3\nnames {payload_hex} 11\n\
         choose {payload_hex} {payload_hex}\n"
    );
    let cookie = &cookie[2..];
    let expected = [
        "0 end",
        "12 0:- 0 0 17",
        "0 end",
        &format!("0 1:{cookie} 1 258 0"),
        "0 25:6162",
        "0 end",
        "0 28:63",
        "0 end",
        "0 end",
        &format!("0 1:{cookie} 1 258 0"),
        "19 0:-",
        "19 0:-",
        "0 25:6162 28:63 end",
        "0 19",
        "4 end",
        "19 0 0:- 0 0",
    ];
    assert_eq!(answers(&script), expected);

    let good = "wkex 01*16 - 61 - - - - - - - - 1 7 00*70\nwkex 01*16 - 61 - - - - - - - - 0 4294967295 00*62\n\
                wkex 01*15 - 61 - - - - - - - - 0 0 -";
    let lines = answers(good);
    assert!(lines[0].starts_with("0 63 out=70:"));
    assert!(lines[1].starts_with("5 0 out=62:"));
    assert_eq!(lines[2], "4 0 out=0:0000000000000000");
}

#[test]
fn an_exchange_as_client_and_as_server() {
    let script = "room 00*14156\nstart 1 1 61 62 14 1415\nownc 07*32 00*1670\n\
                  reply 1f000000016b0000002009090909090909090909090909090909090909090909090909090909090909090000000173\n\
                  secret G32 01*32 a - - -\nverdict 1 1 ff*71\nverdict 1 1 ff*71\n\
                  start 2 1 61 62 14 1415\ninit 1e000000200707070707070707070707070707070707070707070707070707070707070707\n\
                  secret G32 01*32 a - 6b 09*32\nsign 73 00*5774 ff*72\n";
    let s = "09".repeat(32);
    let c = "07".repeat(32);
    // SHA-256 of the eight strings below, and zeros
    let h = format!("224c24eaad8e6aada9dcd74ba9747f1fd8948b5b6ac3c9bc236f33d0b2446252{}", "0".repeat(64));
    let lines = answers(script);
    let starts = [
        "0 | ex 0.0.failed.0.0,0,0,0,0,0,0 k=".to_string(),
        "0 | ex 1.1.started.0.1,1,1,2,0,0,0 k=".to_string(),
        "0 37 out=1670:".to_string(),
        format!("0 5:6b 10:{s} 46:73 0 | ex 1.1.reply.0.1,1,1,2,1,32,32 k="),
        format!("0 134 {h} | ex 1.1.secret.0.1,1,1,2,1,32,32 k="),
        "0 36 out=71:".to_string(),
        "1 0 out=71:".to_string(),
        "0 | ex 2.1.started.0.1,1,1,2,0,0,0 k=".to_string(),
        format!("0 5:{c} 0 | ex 2.1.init.0.1,1,1,2,0,32,0 k="),
        format!("0 134 {h} | ex 2.1.secret.0.1,1,1,2,1,32,32 k="),
        "0 47 36 out=5774:".to_string(),
    ];
    assert_eq!(lines.len(), starts.len());
    for (line, start) in lines.iter().zip(&starts) {
        assert!(line.starts_with(start), "{line}");
    }

    let string = |body: &[u8]| [&(body.len() as u32).to_be_bytes(), body].concat();
    let fields: [&[u8]; 8] = [b"a", b"b", &[20], &[20, 21], b"k", &[7; 32], &[9; 32], &[1; 32]];
    let mut room: Vec<u8> = fields.iter().flat_map(|field| string(field)).collect();
    room.resize(14_156, 0);
    let mut k = string(&[1; 32]);
    k.resize(71, 0);
    let h: Vec<u8> = (0..64).map(|at| u8::from_str_radix(&h[2 * at..2 * at + 2], 16).unwrap()).collect();
    // the identifier comes with the last step
    let tail = |id_len: usize, id: &[u8], count: u64| {
        let (k, h, id, room) = (digest(&k), digest(&h), digest(id), digest(&room));
        format!(" k={k} h={h} sid={id_len}:{id} n={count} room={room}")
    };
    let (early, tail) = (tail(0, &[0; 64], 0), tail(32, &h, 1));
    let k_out = format!("out=71:{}", digest(&k));
    assert!(lines[4].ends_with(&early) && lines[9].ends_with(&early));
    assert_eq!(lines[5], format!("0 36 {k_out} | ex 1.1.complete.0.1,1,1,2,1,32,32{tail}"));
    k.push(0xff);
    assert!(lines[10].contains(&format!("out=72:{}", digest(&k))));
}

/// What answers have gained since a landing was the last one: tokens of the state, by their names, and the position, which has
/// none and is the last ahead of the state. A landing that is not here is the last one.
const LATER: [(&str, &[&str]); 3] =
    [("sha2", &["h", "sid", "n", "position"]), ("keys", &["sid", "n", "position"]), ("rekeying", &["position"])];

/// An answer as it was then.
fn without(call: &str, answer: &str, later: &[&str]) -> String {
    let is_later = |word: &&str| word.split_once('=').is_some_and(|(name, _)| later.contains(&name));
    let has_position = matches!(call.split(' ').next(), Some("open" | "init" | "reply"));
    let mut words: Vec<&str> = answer.split(' ').filter(|word| !is_later(word)).collect();
    if has_position && later.contains(&"position") {
        words.remove(words.iter().position(|word| *word == "|").unwrap_or(words.len()) - 1);
    }
    words.join(" ")
}

/// What is written over with a line of the time when the session identifier was H: where it writes over H, the identifier.
fn with_h_for_identifier(line: &str) -> Option<String> {
    let byte = line.strip_prefix("set h").map(|rest| format!("set s{rest}"));
    byte.or_else(|| line.strip_prefix("put h ").map(|rest| format!("put sid {rest}")))
}

#[test]
fn examples_of_the_landings() {
    let folder = concat!(env!("CARGO_MANIFEST_DIR"), "/../../tests/examples");
    let mut seen = vec![];
    for entry in std::fs::read_dir(folder).unwrap() {
        let path = entry.unwrap().path();
        if path.extension().is_none_or(|extension| extension != "script") {
            continue;
        }
        let name = path.file_stem().unwrap().to_str().unwrap().to_string();
        let script = std::fs::read_to_string(&path).unwrap();
        let want = std::fs::read_to_string(path.with_extension("answers")).unwrap();
        let later = LATER.iter().find(|of| of.0 == name).map_or(&[][..], |of| of.1);
        let calls: Vec<&str> = script.lines().filter(|line| !line.is_empty() && !line.starts_with('#')).collect();
        let (mut lines, mut is_its_own) = (String::new(), vec![]);
        for call in &calls {
            lines += &format!("{call}\n");
            is_its_own.push(true);
            // only a landing ahead of rekeying is without the identifier
            if let Some(also) = with_h_for_identifier(call).filter(|_| later.contains(&"sid")) {
                lines += &format!("{also}\n");
                is_its_own.push(false);
            }
        }
        let have =
            answers(&lines).into_iter().zip(is_its_own).filter_map(|(answer, its_own)| its_own.then_some(answer));
        let have: Vec<String> = have.zip(calls).map(|(answer, call)| without(call, &answer, later)).collect();
        assert_eq!(have, want.lines().collect::<Vec<_>>(), "{name}");
        seen.push(name);
    }
    assert!(LATER.iter().all(|of| seen.iter().any(|name| name == of.0)), "{seen:?}");
}

#[test]
fn positions_in_their_lines() {
    let begin = "room 00*14156\nstart 2 1 61 62 14 14\n";
    let c = "07".repeat(32);
    let init = |payload: &str| brief(&format!("{begin}init {payload}"))[2].split(" | ").next().unwrap().to_string();
    assert_eq!(init("-"), "10 0:- 0");
    assert_eq!(init("1e"), "12 0:- 1");
    assert_eq!(init("1e00000020"), "12 0:- 1");
    assert_eq!(init(&format!("1e00000020{c}")), format!("0 5:{c} 0"));
    assert_eq!(init(&format!("1e00000020{c}00")), "13 0:- 37");
    assert_eq!(init("1e0000000107"), "14 0:- 0");
    // not due
    let lines = brief("init 1e\nreply 1f");
    assert!(lines[0].starts_with("1 0:- 0 | ex") && lines[1].starts_with("1 0:- 0:- 0:- 0 | ex"));
    let begin = "room 00*14156\nstart 1 1 61 62 14 14\nownc 07*32 00*1670\n";
    let reply = |payload: &str| brief(&format!("{begin}reply {payload}"))[3].split(" | ").next().unwrap().to_string();
    assert_eq!(reply("1f000000016b000000"), "12 0:- 0:- 0:- 6");
    assert_eq!(reply(&format!("1f000000016b00000020{c}00")), "12 0:- 0:- 0:- 42");
    assert_eq!(reply(&format!("1f000000016b00000020{c}000000017300")), "13 0:- 0:- 0:- 47");
    assert_eq!(reply(&format!("1f000000016b00000020{c}0000000173")), format!("0 5:6b 10:{c} 46:73 0"));
    // a short room, and what no list has, ahead of the payload
    let short = "room 00*14156\nstart 2 1 61 62 14 14\nroom 00*14155\ninit 1e\nopen 14 11\nopen 14 10\nnames 14 1\n";
    let lines = brief(short);
    assert!(lines[3].starts_with("3 0:- 0 | ex 2.1.started."));
    assert_eq!(lines[4..], ["4 0:- 0 0 0", "12 0:- 0 0 1", "12 end"]);
}

#[test]
fn records_put_together() {
    let state = |stage: &str, k: &[u8], h: &[u8]| {
        let padded = |bytes: &[u8], len: usize| [bytes, &vec![0; len - bytes.len()]].concat();
        let (k, h, id) = (digest(&padded(k, 71)), digest(&padded(h, 64)), digest(&padded(&[3, 4], 64)));
        format!("| ex 1.1.{stage}.0.1,1,1,1,1,32,32 k={k} h={h} sid=48:{id} n=7 room=0000000000000000")
    };
    let set = "set role 1\nset method 1\nset stage complete\nset l0 1\nset l1 1\nset l2 1\nset l3 1\nset l4 1\n\
               set l5 32\nset l6 32\nput sid 0304\nset slen 48\nset count 7\n";
    let script = format!(
        "{set}derive 65 1 ff\nput k 00000001\nput k -\nset h63 255\nput h 0102\nset h63 0\nderive 65 1 eeee\n\
         derive 71 1 eeee\nderive 70 18446744073709551615 eeee\nderive 70 3 eeee\nset stage secret\nderive 70 2 eeee\n"
    );
    let last = [&[1, 2][..], &[0; 61], &[255]].concat();
    let (k, h) = (&[0, 0, 0, 1][..], &[1, 2][..]);
    let ee = |len: usize| format!("out={len}:{}", digest(&vec![0xee; len]));
    // the first byte of SHA-256 of K, H, the letter and the 48 bytes of the identifier, by Python
    let key = digest(&[0x82, 0xee]);
    let expected = [
        format!("1 out=1:{} {}", digest(&[0xff]), state("complete", &[], &[])),
        format!("0 {}", state("complete", k, &[])),
        format!("0 {}", state("complete", k, &[])),
        format!("0 {}", state("complete", k, &[&[0; 63][..], &[255]].concat())),
        format!("0 {}", state("complete", k, &last)),
        format!("0 {}", state("complete", k, h)),
        format!("0 out=2:{key} {}", state("complete", k, h)),
        format!("4 {} {}", ee(2), state("complete", k, h)),
        format!("4 {} {}", ee(2), state("complete", k, h)),
        format!("5 {} {}", ee(2), state("complete", k, h)),
        format!("0 {}", state("secret", k, h)),
        format!("1 {} {}", ee(2), state("secret", k, h)),
    ];
    assert_eq!(answers(&script)[13..], expected);
}

/// Of the lines from this one on: number, stage, identifier's length and count.
fn sessions(script: &str, from: usize) -> Vec<String> {
    let of = |line: &String| {
        let (answer, state) = line.split_once(" | ex ").unwrap();
        let word = |name: &str| state.split(' ').find_map(|word| word.strip_prefix(name)).unwrap().to_string();
        let (number, stage) = (answer.split(' ').next().unwrap(), state.split('.').nth(2).unwrap());
        format!("{number} {stage} {} {}", word("sid=").split(':').next().unwrap(), word("n="))
    };
    answers(script)[from..].iter().map(of).collect()
}

#[test]
fn forged_sessions() {
    let begin = "room 00*14156\nstart 2 1 61 62 14 14\n";
    let init = "init 1e000000200707070707070707070707070707070707070707070707070707070707070707\n";
    let last = "secret G32 01*32 a - 6b 09*32\nsign 73 00*5774 00*71\n";
    let most = 4_294_967_295u64;
    // a count and a length go together, and not the most of counts while a step is due; what does not fit stays as it is
    for (id_len, count) in
        [(0, 1), (32, 0), (31, 1), (33, 1), (65_536 + 32, 1), (u64::MAX, 1), (32, most), (64, most + 1), (64, u64::MAX)]
    {
        let lines = sessions(&format!("{begin}set slen {id_len}\nset count {count}\n{init}again 1 14 14\n"), 3);
        let expected = [0, 1, 1].map(|number| format!("{number} started {id_len} {count}"));
        assert_eq!(lines, expected);
    }
    for id_len in [32, 48, 64] {
        let full = format!("set slen {id_len}\nset count {}\n", most - 1);
        let lines = sessions(&format!("{begin}{full}{init}{last}again 1 14 15\nagain 9 14 14\n"), 4);
        let numbers = [
            (0, "init", most - 1),
            (0, "secret", most - 1),
            (0, "complete", most),
            (4, "complete", most),
            (23, "complete", most),
        ];
        assert_eq!(lines, numbers.map(|(number, stage, count)| format!("{number} {stage} {id_len} {count}")));
    }
    // blank and start forget; a fault does not
    let lines = sessions(&format!("{begin}{init}{last}again 9 14 14\ninit 1e\nblank\n{begin}"), 4);
    let expected =
        ["0 complete 32 1", "0 started 32 1", "12 failed 32 1", "0 failed 0 0", "0 failed 0 0", "0 started 0 0"];
    assert_eq!(lines, expected);
}

#[test]
fn a_hash_between_lines() {
    let zeros = "0".repeat(128);
    let abc = format!("0 ba7816bf8f01cfea414140de5dae2223b00361a396177a9cb410ff61f20015ad{}", "0".repeat(64));
    let script = "finish\nfeed -\nsha 32\nfeed 6162\nfeed 63\nfinish\nfeed -\nfinish\nfeed 61*65534\nsha 47\nfeed 61\n\
                  finish\nsha 64\nfeed 61*129\nshaset tail 129\nfeed -\nshaset tail 18446744073709551615\n\
                  shaset total 18446744073709551615\nfinish\nshaset kind 255\nfinish\nsha 48\nfeed 00*65537\n\
                  feed 00*65536\nfeed -\nfeed 00\n";
    let expected = [
        &format!("4 {zeros}"),
        "4 0.0.0",
        "0 32.0.0",
        "0 32.2.2",
        "0 32.3.3",
        &abc,
        "0 32.3.3",
        &abc,
        "4 32.3.3",
        "4 0.0.0",
        "4 0.0.0",
        &format!("4 {zeros}"),
        "0 64.0.0",
        "0 64.129.1",
        "0 64.129.129",
        "4 64.129.129",
        "0 64.129.18446744073709551615",
        "0 64.18446744073709551615.18446744073709551615",
        &format!("4 {zeros}"),
        "0 255.18446744073709551615.18446744073709551615",
        &format!("4 {zeros}"),
        "0 48.0.0",
        "4 48.0.0",
        "0 48.65536.0",
        "0 48.65536.0",
        "4 48.65536.0",
    ];
    assert_eq!(answers(script), expected);
}

#[test]
fn forged_records() {
    let blank = "ex 0.0.failed.0.0,0,0,0,0,0,0";
    assert_eq!(
        brief("blank\nset fail 9\nblank"),
        [format!("0 | {blank}"), "0 | ex 0.0.failed.9.0,0,0,0,0,0,0".to_string(), format!("0 | {blank}"),]
    );
    let begin = "room 00*14156\nstart 2 1 61 62 14 14\n";
    let init = "init 1e000000200707070707070707070707070707070707070707070707070707070707070707\n";
    let part = format!("5:{}", "07".repeat(32));
    let started = "ex 2.1.started.0.1,1,1,1,0,0,0";
    // A fail number waits for a stage that is set to failed; until then the exchange is as it was.
    let lines = brief(&format!("{begin}set fail 7\nset stage failed\n{init}set stage started\n{init}"));
    assert_eq!(
        lines[2..],
        [
            format!("0 | {started}"),
            "0 | ex 2.1.failed.7.1,1,1,1,0,0,0".to_string(),
            "1 0:- 0 | ex 2.1.failed.7.1,1,1,1,0,0,0".to_string(),
            format!("0 | {started}"),
            format!("0 {part} 0 | ex 2.1.init.0.1,1,1,1,0,32,0"),
        ]
    );
    let lines = brief(&format!(
        "{begin}set l3 18446744073709551615\n{init}set l3 1\nset role 3\n{init}set role 2\n\
                                set k70 255\npoke 14155 ff\ninit 1e\n"
    ));
    assert_eq!(
        lines[2..],
        [
            "0 | ex 2.1.started.0.1,1,1,18446744073709551615,0,0,0".to_string(),
            "1 0:- 0 | ex 2.1.started.0.1,1,1,18446744073709551615,0,0,0".to_string(),
            format!("0 | {started}"),
            "0 | ex 3.1.started.0.1,1,1,1,0,0,0".to_string(),
            "1 0:- 0 | ex 3.1.started.0.1,1,1,1,0,0,0".to_string(),
            format!("0 | {started}"),
            format!("0 | {started}"),
            format!("0 | {started}"),
            "12 0:- 1 | ex 2.1.failed.12.0,0,0,0,0,0,0".to_string(),
        ]
    );
}

#[test]
fn bad_lines() {
    let bad = [
        "what",
        " ",
        "rstr",
        "rstr 00 00",
        "rstr 0",
        "rstr AB",
        "rstr 0g",
        "rstr ",
        "rstr 00*",
        "rstr 00*x",
        "rstr -*1",
        "rstr  00",
        "open - -1",
        "open - +1",
        "open - 18446744073709551616",
        "wkex 00 - - - - - - - - - 0 0 -",
        "wkex 00 - - - - - - - - - - 0 4294967296 -",
        "room 00*99999999999999999999",
        "poke 0 00",
        "poke 1 -",
        "poke 18446744073709551615 0000",
        "set",
        "set role 256",
        "set role -",
        "set stage begun",
        "set stage 1",
        "set l7 0",
        "set k71 0",
        "set k0 256",
        "set h64 0",
        "set h0 256",
        "set h 0",
        "put",
        "put k",
        "put k 00*72",
        "put h 00*65",
        "put room 00",
        "put h0 00",
        "put k 0",
        "put sid 00*65",
        "put s0 00",
        "set s64 0",
        "set s0 256",
        "set s 0",
        "set sid 0",
        "set slen 18446744073709551616",
        "set count 18446744073709551616",
        "set count -",
        "again",
        "again 1 14",
        "again 256 14 14",
        "again 1 14 14 14",
        "set what 0",
        "set fail 256",
        "blank 1",
        "start 256 1 - - - -",
        "start 1 1 - - -",
        "secret X - a - - -",
        "secret G - a - - -",
        "secret F - x - - -",
        "sha",
        "sha 256",
        "sha -",
        "feed",
        "feed 0",
        "finish 1",
        "shaset kind",
        "shaset kind 256",
        "shaset total 18446744073709551616",
        "shaset held 0",
        "verdict 2 0 -",
        "derive 65 16",
        "derive 256 16 -",
        "derive A 16 -",
        "derive 65 18446744073709551616 -",
        "derive 65 16 - -",
        "verdict 0 yes -",
        "next 1",
        "rstr \u{e9}",
    ];
    for line in bad {
        let (out, err, status) = play(&format!("# first\nrstr 00000000\n{line}\nrstr -\n"));
        assert_eq!((out.as_str(), status), ("0 4:- 4:-\n", 1), "{line}");
        assert!(err.starts_with("plain_bench: line 3: ") && err.lines().count() == 1, "{line}: {err}");
    }
    assert_eq!(answers("poke 0 -").len(), 1);
    assert!(answers("").is_empty());
}
