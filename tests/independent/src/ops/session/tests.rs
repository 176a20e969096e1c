//! Tests of the module through operations, from document 01's examples.

use super::*;

const CR: &str = "\r";

/// A session with operations and lines in readable form.
struct Desk {
    session: Session,
}

impl Desk {
    /// A module of a capacity on a port.
    fn new(port: u32, capacity: usize) -> Desk {
        let mut session = Session::new();
        let start = format!("start 42 {port} {capacity} {capacity}");
        assert_eq!(session.answer(start.as_bytes()).unwrap(), "R 0");
        Desk { session }
    }

    /// A GPIB module of capacity 8.
    fn gpib() -> Desk {
        Desk::new(1, 8)
    }

    /// The answer to an operation.
    fn does(&mut self, operation: &str) -> String {
        self.session.answer(operation.as_bytes()).unwrap()
    }

    /// Refusal, place, length and what was written, of a line with room enough.
    fn says(&mut self, line: &str) -> String {
        self.says_with(line, 2_000)
    }

    /// The same of a line with this room.
    fn says_with(&mut self, line: &str, room: usize) -> String {
        let answer = self.session.module.line(line.as_bytes(), room);
        text_of(&answer)
    }

    /// Feeds bytes without end marks; the answers that are not all zero.
    fn bytes(&mut self, bytes: &[u8]) -> Vec<String> {
        let answers = bytes.iter().map(|&byte| text_of(&self.session.module.byte(byte, false, 100)));
        answers.filter(|text| text != "0 0 0 ").collect()
    }

    /// What `dump` writes of a field.
    fn field(&mut self, name: &str) -> String {
        let dump = self.does("dump");
        let start = format!("{name}=");
        dump.split(' ').find_map(|field| field.strip_prefix(&start)).unwrap().to_string()
    }
}

/// Refusal, place, length and what was written.
fn text_of(answer: &Answer) -> String {
    let written: String = answer.written.iter().map(|&byte| char::from(byte)).collect();
    format!("{} {} {} {written}", number(answer.refusal), answer.place, answer.length)
}

/// Lines on either side of what decides, each on a module of its own.
#[test]
fn examples_on_both_sides() {
    for (line, expected) in [
        ("PHAS -180;PHAS?", "0 0 7 180.00\n"),
        ("PHAS 729.99;PHAS?", "0 0 5 9.99\n"),
        ("PHAS 729.991", "2 1 0 "),
        ("FREQ 1234.56;FREQ?", "0 0 10 1234.6000\n"),
        ("FREQ 12345.5;FREQ?", "0 0 11 12346.0000\n"),
        ("HARM 102;HARM?", "0 0 4 102\n"),
        ("HARM 103", "3 1 0 "),
        ("HARM 5.4", "2 1 0 "),
        ("FREQ 100;HARM 2;OFLT 14;OFLT?", "0 0 3 14\n"),
        ("FREQ 100.01;HARM 2;OFLT 14;OFLT?", "0 0 3 14\n"),
        ("HARM 2;FREQ 100;OFLT 14;OFLT?", "3 3 2 8\n"),
        ("SLVL 1.001;SLVL?", "0 0 6 1.002\n"),
        ("PHAS 541;PHAS?", "0 0 8 -179.00\n"),
        ("*IDN?", "0 0 28 LOCKIN,M1,s/n00042,ver1.000\n"),
        ("FREQ 102000.1;*ESR?", "2 1 4 144\n"),
    ] {
        assert_eq!(Desk::gpib().says(line), expected, "{line}");
    }
}

#[test]
fn trace_words_as_floats() {
    let mut desk = Desk::gpib();
    assert_eq!(desk.says("SRAT 14;STRT"), "0 0 0 ");
    for (pair, expected) in [
        ("pair 007c0001 007bfffd", "0000803f0000c0bf"),
        ("pair 007c7fff 00ec8000", "00feff46000000ff"),
        ("pair 00000000 00ec0000", "0000000000000000"),
    ] {
        assert_eq!(desk.does(pair), "A 0");
        assert_eq!(desk.says("TRIG"), "0 0 0 ");
        let bin = desk.session.module.storage.held() - 1;
        let line = format!("TRCB?1,{bin},1;TRCB?2,{bin},1");
        let answer = desk.session.module.line(line.as_bytes(), 8);
        assert_eq!((answer.length, hex::encode(&answer.written).as_str()), (8, expected));
    }
    assert_eq!(desk.does("poke 2 0 01000000"), "K");
    assert_eq!(desk.does(&format!("line {} 9", hex::encode(b"TRCB?2,0,1"))), "A 0 0 4 0000c07faaaaaaaaaa");
    assert_eq!(desk.does(&format!("line {} 4", hex::encode(b"TRCL?2,0,1"))), "A 0 0 4 00000001");
}

#[test]
fn every_setting_starts_as_the_table_says() {
    let mut desk = Desk::gpib();
    for (query, expected) in [
        ("PHAS?", "0.00"),
        ("FMOD?", "1"),
        ("FREQ?", "1000.0000"),
        ("RSLP?", "0"),
        ("HARM?", "1"),
        ("SLVL?", "1.000"),
        ("ISRC?", "0"),
        ("ILIN?", "0"),
        ("OFSL?", "1"),
        ("IGND?", "0"),
        ("ICPL?", "0"),
        ("SYNC?", "0"),
        ("SENS?", "26"),
        ("RMOD?", "2"),
        ("OFLT?", "8"),
        ("DDEF?1", "0,0"),
        ("DDEF?2", "0,0"),
        ("FPOP?2", "0"),
        ("OEXP?3", "0.00,0"),
        ("AUXV?4", "0.000"),
        ("SRAT?", "4"),
        ("SEND?", "1"),
        ("TSTR?", "0"),
        ("SPTS?", "0"),
        ("*ESR?7", "1"),
        ("*ESR?", "0"),
        ("LIAS?", "0"),
        ("ERRS?", "0"),
        ("*ESE?", "0"),
        ("*SRE?", "0"),
        ("LIAE?", "0"),
        ("ERRE?", "0"),
        ("*STB?", "1"),
    ] {
        assert_eq!(desk.says(query), format!("0 0 {} {expected}\n", expected.len() + 1), "{query}");
    }
}

#[test]
fn channels_are_kept_apart() {
    let mut desk = Desk::gpib();
    desk.says("DDEF 2,4,1;FPOP 1,1;OEXP 2,-12.345,2;AUXV 3,-.0005;AUXV 4,10.5");
    assert_eq!(desk.says("DDEF?1;DDEF?2"), "0 0 8 0,0\n4,1\n");
    assert_eq!(desk.says("FPOP?1;FPOP?2"), "0 0 4 1\n0\n");
    assert_eq!(desk.says("OEXP?1;OEXP?2;OEXP?3"), "0 0 23 0.00,0\n-12.35,2\n0.00,0\n");
    assert_eq!(desk.says("AUXV?3;AUXV?4"), "0 0 14 -0.001\n10.500\n");
    assert_eq!((desk.field("oexp"), desk.field("auxv")), ("0,0,-1235,2,0,0".into(), "0,0,-1,10500".into()));
    assert_eq!((desk.field("ddef"), desk.field("fpop")), ("0,0,4,1".into(), "1,0".into()));
}

#[test]
fn frequency_in_force_and_its_limits() {
    let mut desk = Desk::gpib();
    assert_eq!(desk.does("measured 5"), "A 0");
    assert_eq!((desk.field("lia"), desk.field("ext")), ("0".into(), "10000000".into()));
    assert_eq!(desk.says("FREQ 51000;HARM 2;HARM 3;FREQ 51001;FMOD 0;FREQ 5;FREQ?"), "3 3 10 1000.0000\n");
    assert_eq!(desk.does("measured 510000001"), "A 0");
    assert_eq!((desk.field("lia"), desk.field("ext")), ("8".into(), "10000000".into()));
    assert_eq!(desk.does("measured 510000000"), "A 0");
    assert_eq!(desk.says("FREQ?;HARM 3;FMOD 1;FREQ 10;HARM 3;FMOD 0;HARM?"), "3 2 13 51000.0000\n3\n");
    for (units, lia) in [("9", "8"), ("1020000001", "8")] {
        desk.says("*CLS;*RST;FMOD 0");
        desk.does(&format!("measured {units}"));
        assert_eq!((desk.field("lia"), desk.field("ext")), (lia.into(), "10000000".into()));
    }
}

/// FREQ at the last step inside the band and the first outside, from both ranges.
#[test]
fn both_ends_of_the_band_keep_the_range() {
    let mut desk = Desk::new(1, 4);
    assert_eq!(desk.says("FREQ 203.12;OFLT 14;LIAS?"), "3 2 2 0\n");
    assert_eq!(desk.says("FREQ 199.21;OFLT 14;LIAS?"), "3 2 2 0\n");
    assert_eq!(desk.field("range"), "upper");
    assert_eq!(desk.says("FREQ 199.2;LIAS?;OFLT 19"), "0 0 3 16\n");
    assert_eq!(desk.says("FREQ 203.12;LIAS?;OFLT?"), "0 0 5 0\n19\n");
    assert_eq!(desk.field("range"), "lower");
    assert_eq!(desk.says("FREQ 203.13;LIAS?;OFLT?"), "0 0 6 48\n13\n");
    assert_eq!(desk.field("range"), "upper");
}

/// The last unit inside the band and the first outside; HARM and FMOD too.
#[test]
fn measured_frequencies_and_harmonics_move_the_range() {
    let mut desk = Desk::gpib();
    assert_eq!(desk.says("FMOD 0;LIAS?"), "0 0 2 0\n");
    for (units, lia, range) in [
        ("1992100", "0", "upper"),
        ("1992099", "16", "lower"),
        ("2031200", "0", "lower"),
        ("2031201", "16", "upper"),
        ("2031200", "0", "upper"),
    ] {
        assert_eq!(desk.does(&format!("measured {units}")), "A 0");
        assert_eq!((desk.field("lia"), desk.field("range")), (lia.into(), range.into()), "{units}");
        desk.says("*CLS");
    }
    assert_eq!(desk.says("OFLT 14;HARM 2;FMOD 1;FREQ 100.01;OFLT 14;LIAS?"), "3 1 2 0\n");
    assert_eq!(desk.says("HARM 1;OFLT 14;HARM 2;LIAS?;OFLT?;HARM 3;LIAS?;OFLT?"), "0 0 12 16\n14\n48\n13\n");
    assert_eq!(desk.says("HARM 1;OFLT 19;FMOD 0;LIAS?;OFLT?"), "0 0 6 16\n19\n");
    desk.does("measured 2031201");
    assert_eq!(
        (desk.field("lia"), desk.field("oflt"), desk.field("range")),
        ("48".into(), "13".into(), "upper".into())
    );
}

/// It leaves the range upper.
#[test]
fn reset_from_lower_sets_no_bit_and_clears_none() {
    let mut desk = Desk::gpib();
    assert_eq!(desk.says("FREQ 100;OFLT 19;LIAS?;*RST;LIAS?;OFLT?"), "0 0 7 16\n0\n8\n");
    assert_eq!(desk.field("range"), "upper");
    desk.says("FREQ 100;OFLT 19;*RST");
    assert_eq!((desk.field("lia"), desk.field("range")), ("16".into(), "upper".into()));
    desk.says("FMOD 0;*CLS");
    desk.does("measured 10");
    desk.says("*CLS;OFLT 14;*RST");
    assert_eq!(
        (desk.field("lia"), desk.field("range"), desk.field("ext")),
        ("0".into(), "upper".into(), "10000000".into())
    );
}

/// By either frequency and with a harmonic, beside states that are allowed.
#[test]
fn the_three_faults_of_a_range_are_refused_by_11() {
    for (alterations, tick) in [
        ("range lower", "A 11"),
        ("freq 10", "A 11"),
        ("oflt 14", "A 11"),
        ("freq 10,range lower,oflt 19", "A 0"),
        ("freq 1992000", "A 11"),
        ("freq 1992100", "A 0"),
        ("freq 2031200", "A 0"),
        ("freq 1992100,range lower", "A 0"),
        ("freq 2031200,range lower,oflt 19", "A 0"),
        ("freq 2031200,oflt 14", "A 11"),
        ("freq 2031300,range lower", "A 11"),
        ("fmod 0,ext 1992099", "A 11"),
        ("fmod 0,ext 1992100", "A 0"),
        ("fmod 0,ext 2031201,range lower", "A 11"),
        ("freq 1015600,harm 2,range lower,oflt 14", "A 0"),
        ("freq 1015700,harm 2,range lower", "A 11"),
    ] {
        let mut desk = Desk::gpib();
        for alteration in alterations.split(',') {
            assert_eq!(desk.does(&format!("alter {alteration}")), "K");
        }
        assert_eq!(desk.does("tick"), tick, "{alterations}");
    }
}

#[test]
fn a_turned_loop_is_read_from_the_oldest_on() {
    let mut desk = Desk::new(1, 3);
    desk.says("STRT");
    for m in 1..=4 {
        desk.does(&format!("pair 0000000{m} 0000010{m}"));
        desk.does("tick");
    }
    assert_eq!(desk.does(&format!("line {} 12", hex::encode(b"TRCL?1,0,3"))), "A 0 0 12 020000000300000004000000");
    assert_eq!(desk.says("SPTS?;TRCL?2,1,3"), "3 2 2 3\n");
    assert_eq!((desk.field("held"), desk.field("next")), ("3".into(), "1".into()));
    assert_eq!(desk.field("t1"), "00000004,00000002,00000003");
    assert_eq!(desk.says("SEND 1"), "3 1 0 ");
    assert_eq!(desk.says("REST;SEND 0;SPTS?"), "0 0 2 0\n");
    assert_eq!(desk.field("t1"), "00000004,00000002,00000003");
}

#[test]
fn one_shot_and_triggers() {
    let mut desk = Desk::new(1, 2);
    desk.says("SEND 0;TRIG;SRAT 14;TRIG");
    assert_eq!((desk.field("storage"), desk.field("lia")), ("reset".into(), "0".into()));
    desk.says("STRT;PAUS;TRIG");
    assert_eq!((desk.field("storage"), desk.field("lia")), ("paused".into(), "0".into()));
    desk.says("TSTR 1");
    assert_eq!(desk.does("trigger"), "A 0");
    assert_eq!(
        (desk.field("storage"), desk.field("held"), desk.field("lia")),
        ("running".into(), "1".into(), "64".into())
    );
    desk.does("tick");
    assert_eq!(desk.says("*CLS;TRIG;LIAS?;*STB?;SPTS?"), "0 0 8 64\n17\n2\n");
    assert_eq!((desk.field("storage"), desk.field("next")), ("done".into(), "0".into()));
    assert_eq!(desk.says("STRT;PAUS;TRIG;LIAS?"), "0 0 2 0\n");
    assert_eq!(desk.field("storage"), "done");
    desk.says("REST;SRAT 13;TRIG;LIAS?");
    assert_eq!((desk.field("storage"), desk.field("held")), ("running".into(), "0".into()));
    assert_eq!(desk.says("*CLS;TRIG;LIAS?"), "0 0 2 0\n");
}

#[test]
fn status_and_enables() {
    let mut desk = Desk::gpib();
    assert_eq!(desk.says("XXXX;HARM 0;*ESR? 4;*ESR?"), "1 1 6 1\n160\n");
    assert_eq!(desk.says("*SRE 255;*SRE?;*SRE 6,1;*SRE? 6;*SRE 4,0;*SRE?"), "0 0 10 191\n0\n175\n");
    assert_eq!(desk.says("*SRE 32;*ESE 5,1;*STB?;XXXX;*STB?;*ESR?;*STB?"), "1 4 12 1\n113\n32\n17\n");
    assert_eq!(desk.does("raise 4 2"), "A 0");
    assert_eq!(desk.says("LIAE 4;*STB?"), "0 0 2 9\n");
    assert_eq!(desk.says("ERRE 1,1;*STB? 2;*SRE 0,1;*STB?;LIAS? 2;LIAS?;ERRS?"), "0 0 11 1\n93\n1\n0\n2\n");
    for raise in ["raise 16 0", "raise 0 1", "raise 0 8", "raise 255 255"] {
        assert_eq!(desk.does(raise), "A 6");
    }
    assert_eq!((desk.field("lia"), desk.field("err")), ("0".into(), "0".into()));
    assert_eq!(desk.does("raise 15 246"), "A 0");
    assert_eq!(desk.says("XXXX;*CLS;*ESR?;LIAS?;ERRS?;*ESE?;*SRE?"), "1 1 12 0\n0\n0\n32\n33\n");
}

#[test]
fn pairs_with_a_bad_point_are_not_taken() {
    let mut desk = Desk::gpib();
    assert_eq!(desk.does("pair 00ec8000 00000001"), "A 0");
    assert_eq!(desk.does("pair 00ed0000 00000002"), "A 6");
    assert_eq!(desk.does("pair 00000002 01000000"), "A 6");
    assert_eq!(desk.field("pair"), "00ec8000,00000001");
}

#[test]
fn a_reply_that_exceeds_the_room() {
    let mut desk = Desk::gpib();
    assert_eq!(desk.says_with("HARM 2;HARM?;*ESR?;HARM 3", 4), "4 3 0 2\n");
    assert_eq!((desk.field("harm"), desk.field("esr")), ("2".into(), "132".into()));
    assert_eq!(desk.says_with("HARM 0;HARM?;*ESR?", 4), "2 1 0 2\n");
    assert_eq!(desk.says_with("*ESR?", 4), "0 0 4 148\n");
    assert_eq!(desk.says_with("TRCL?1,0,1", 0), "3 1 0 ");
    assert_eq!(desk.does(&format!("line {} 3", hex::encode(b"FREQ?"))), "A 4 1 0 aaaaaa");
}

#[test]
fn lines_over_256_bytes() {
    let mut desk = Desk::gpib();
    desk.bytes(b"HAR");
    assert_eq!(desk.says(&"x".repeat(257)), "5 0 0 ");
    assert_eq!((desk.field("queue"), desk.field("esr")), ("484152".into(), "129".into()));
    assert_eq!(desk.says(&" ".repeat(256)), "0 0 0 ");
    assert_eq!(desk.bytes(b"M?\n"), ["0 0 2 1\n"]);
    desk.says("*CLS");
    assert_eq!(desk.bytes(&[b' '; 256]), [""; 0]);
    assert_eq!(desk.bytes(b"\r"), ["5 0 0 "]);
    assert_eq!((desk.field("queue"), desk.field("esr"), desk.field("dropping")), ("-".into(), "1".into(), "1".into()));
    assert_eq!(desk.bytes(b"XXXX;HARM?\n"), [""; 0]);
    assert_eq!(desk.bytes(b"HARM?\n"), ["0 0 2 1\n"]);
    desk.bytes(&[b' '; 256]);
    assert_eq!(desk.does("byte 20 1 0"), "A 5 0 0 -");
    assert_eq!(desk.field("dropping"), "0");
    desk.bytes(&[b' '; 257]);
    assert_eq!((desk.does("byte 58 1 0"), desk.field("dropping")), ("A 0 0 0 -".into(), "0".into()));
}

#[test]
fn line_ends_of_both_ports() {
    let mut desk = Desk::new(0, 8);
    let reply = format!("0 0 2 1{CR}");
    assert_eq!(desk.bytes(b"HARM?\r\nHARM?\n"), [reply.as_str(), &reply]);
    assert_eq!(desk.does("byte 48 1 4"), "A 0 0 0 aaaaaaaa");
    assert_eq!(desk.field("queue"), "48");
    let mut desk = Desk::new(1, 8);
    desk.bytes(b"\rHA RM");
    assert_eq!(desk.does("byte 3f 1 4"), "A 0 0 2 310aaaaa");
    desk.bytes(b"HARM?");
    assert_eq!(desk.does("byte 0a 1 2"), "A 0 0 2 310a");
    assert_eq!(desk.field("queue"), "-");
}

#[test]
fn reset_leaves_status_and_the_latest_pair() {
    let mut desk = Desk::new(1, 2);
    desk.does("pair 00000001 00000002");
    desk.says("*ESE 3;LIAE 7;PHAS 5;TSTR 1;TRIG;SEND 0;XXXX;*RST");
    for (name, expected) in [
        ("ese", "3"),
        ("liae", "7"),
        ("phas", "0"),
        ("tstr", "0"),
        ("storage", "reset"),
        ("esr", "176"),
        ("lia", "64"),
        ("pair", "00000001,00000002"),
    ] {
        assert_eq!(desk.field(name), expected, "{name}");
    }
}

#[test]
fn the_module_before_any_start_and_after_a_refused_one() {
    let mut session = Session::new();
    let before = session.answer(b"dump").unwrap();
    assert!(
        before.starts_with("serial=0 port=1 cap=1 phas=0 fmod=1 freq=10000000 ext=10000000 rslp=0 harm=1 slvl=1000 ")
    );
    assert!(before.ends_with(
        "storage=reset held=0 next=0 pair=00000000,00000000 esr=128 lia=0 err=0 ese=0 sre=0 liae=0 erre=0 queue=- \
         dropping=0 t1=00000000 t2=00000000 range=upper"
    ));
    session.answer(b"start 5 0 4 4");
    assert_eq!(session.answer(b"start 100000 0 4 5").unwrap(), "R 10");
    assert_eq!(session.answer(b"dump").unwrap(), before);
    assert_eq!(session.answer(b""), None);
    assert_eq!(session.answer(b"dump ").unwrap(), "?");
}

#[test]
fn an_altered_state_is_tested_by_each_call() {
    let mut desk = Desk::gpib();
    assert_eq!(desk.does("alter harm 0"), "K");
    for (call, answer) in [
        ("line 41 2", "A 11 0 0 aaaa"),
        ("byte 41 0 1", "A 11 0 0 aa"),
        ("run 410a 1 2", "B 0 11 0 0 0 aaaa"),
        ("run - 0 0", "B 0 11 0 0 0 -"),
        ("pair 00000000 00000000", "A 11"),
        ("pair ffffffff 00000000", "A 11"),
        ("tick", "A 11"),
        ("trigger", "A 11"),
        ("measured 1", "A 11"),
        ("raise 255 255", "A 11"),
        ("poll", "S 11 0"),
    ] {
        assert_eq!(desk.does(call), answer, "{call}");
    }
    assert_eq!((desk.field("harm"), desk.field("esr")), ("0".into(), "128".into()));
    assert_eq!(desk.does("alter harm 1"), "K");
    assert_eq!(desk.does("tick"), "A 0");
}

#[test]
fn traces_of_another_capacity_are_refused_by_9_after_11() {
    let mut desk = Desk::gpib();
    for (capacity, tick, poll) in
        [(7, "A 9", "S 0 3"), (0, "A 11", "S 11 0"), (16_384, "A 11", "S 11 0"), (8, "A 0", "S 0 3")]
    {
        desk.does(&format!("alter cap {capacity}"));
        assert_eq!((desk.does("tick").as_str(), desk.does("poll").as_str()), (tick, poll), "{capacity}");
        let run = format!("B 0 {} 0 0 0 -", &tick[2..]);
        assert_eq!(desk.does("run - 0 0"), run, "{capacity}");
        assert_eq!(desk.field("t1").len(), 8 * 9 - 1);
    }
}
