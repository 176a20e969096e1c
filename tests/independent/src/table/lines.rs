//! Worked lines: document 01's examples, forms, names, spaces and places.

use crate::command::{names, MOST_LINE_BYTES};

/// All worked lines.
pub fn lines() -> Vec<Vec<u8>> {
    let mut lines = Vec::new();
    for texts in [EXAMPLES, ORDER_AND_FORM, UNKNOWN_NAMES, SPACES_AND_CASE, PLACES] {
        lines.extend(texts.iter().map(|text| text.as_bytes().to_vec()));
    }
    lines.extend(forms());
    lines.extend(damaged_names());
    lines.extend(long_lines());
    lines.extend(single_bytes());
    lines
}

/// The command lines of document 01's examples.
const EXAMPLES: &[&str] = &[
    "*RST;FREQ 100;HARM 2",
    "OFLT 14",
    "HARM 3",
    "FMOD 0",
    "OFLT 19",
    "*IDN?",
    "PHAS 541",
    "PHAS?",
    "FREQ 102000.1",
    "*ESR?",
    "SLVL 1.001;SLVL?",
    "PHAS -180",
    "PHAS 729.99",
    "PHAS 729.991",
    "FREQ 1234.56",
    "FREQ 12345.5",
    "HARM 102",
    "HARM 103",
    "HARM 5.4",
    "FREQ 100;HARM 2;OFLT 14",
    "FREQ 100.01;HARM 2;OFLT 14",
    "*RST;SRAT 14;STRT;TRIG;TRIG",
    "TRCB?1,0,2",
    "TRCL?1,0,2",
    "*RST",
    "*ESR? 4",
    "SPTS?",
    "*STB?",
    "*CLS",
    "LIAS?",
    "ERRS?",
    "FREQ?",
    "FREQ 10E3",
    "PHAS 541.0",
    "FMOD 1",
    "STRT",
];

/// Every name with and without "?", a line each, with 0 to 4 arguments.
fn forms() -> impl Iterator<Item = Vec<u8>> {
    names().into_iter().flat_map(|name| {
        ["", "?"].map(|mark| {
            let commands = [0, 1, 2, 3, 4].map(|count| format!("{name}{mark} {}", vec!["1"; count].join(",")));
            commands.join(";").into_bytes()
        })
    })
}

/// Forms before values, values from left to right, and "?" and "," in the wrong places.
const ORDER_AND_FORM: &[&str] = &[
    "DDEF 9,X,0",
    "DDEF X,9,0",
    "DDEF 9,9,X",
    "DDEF 9,9,",
    "DDEF 9,9",
    "DDEF 9,9,9",
    "DDEF 9,9,9,9",
    "DDEF 2,4,1",
    "DDEF 1,0,2",
    "DDEF? 2",
    "DDEF? 3",
    "DDEF? 0",
    "DDEF? X",
    "DDEF? 2,X",
    "FPOP 2,0",
    "FPOP 3,2",
    "FPOP 3,2.",
    "FPOP 1.5,E",
    "FPOP? 1.5",
    "OEXP 3,-0.01,2",
    "OEXP 2,12.345,1",
    "OEXP 4,0,0",
    "OEXP 4,106,3",
    "OEXP 1,105.01,X",
    "OEXP? 3",
    "OEXP? 4",
    "AUXV 4,-10.5",
    "AUXV 3,.0005",
    "AUXV 5,11",
    "AUXV 5,1 1 . 1 .",
    "AUXV? 4",
    "AUXV? 5",
    "TRCL? 2,16383,1",
    "TRCB? 2,0,16383",
    "TRCB? 1,16383,16383",
    "TRCB? 3,0,0",
    "TRCB? 3,0,0E",
    "*ESE 255",
    "*ESE 256",
    "*ESE 7,0",
    "*ESE 8,1",
    "*ESE 7,2",
    "*ESE 255,1",
    "*ESE? 7",
    "*ESE? 8",
    "*SRE 255",
    "*SRE 6,1",
    "LIAE 64",
    "ERRE 0,1",
    "HARM ?",
    "HARM 5?",
    "HARM ?5",
    "HARM??",
    "?HARM",
    "HARM,5",
    "HARM 5,",
    "HARM?,",
    "TRCB?,1,0,2",
];

/// For each name: cut short, lengthened, with another letter at each place, and as it should be.
fn damaged_names() -> impl Iterator<Item = Vec<u8>> {
    names().into_iter().map(|name| {
        let mut texts = vec![name[..3].to_string(), format!("{name}S"), format!("S{name}"), name[1..].to_string()];
        for at in 0..name.len() {
            let mut bytes = name.as_bytes().to_vec();
            bytes[at] = if bytes[at] == b'Q' { b'J' } else { b'Q' };
            texts.push(String::from_utf8_lossy(&bytes).into_owned());
        }
        let swapped = format!("{}{}{}", &name[..2], &name[3..], &name[2..3]);
        texts.push(swapped);
        texts.push(format!("*{}", &name[1..]));
        texts.push(format!("*{name}"));
        texts.push(name.to_lowercase());
        let lines: Vec<String> = texts.iter().map(|text| format!("{text};{text}?")).collect();
        lines.join(";").into_bytes()
    })
}

/// Names of document 001 and others that are no commands here.
const UNKNOWN_NAMES: &[&str] = &[
    "OUTX;OUTX 1;OUTX?;OVRM 1;OVRM?;KCLK 1;ALRM 1;SSET 1;RSET 1",
    "AGAN;ARSV;APHS;AOFF 1;OAUX? 1;OUTP? 1;OUTR? 1;SNAP? 1,2",
    "FAST 1;FAST?;STRD;TRCA? 1,0,1;LOCL 1;LOCL?;*PSC 1;*PSC?",
    "*LIAE 1;*LIAE?;*ERRE 1;*ERRE?;*LIAS?;*ERRS?;*TRG;*OPC?;*WAI;*TST?",
    "STB?;ESR?;IDN?;CLS;RST;SRE 1;ESE 1",
    "*;**;***;****;*?;**RST;*RST*;*R;*RS",
    "A;AB;ABC;ABCD;ABCDE;1;12;1234;12345",
    "?;??;????;?????;,;,,,,;....;+1;-1;5",
    "HARM1;HARM01;HARM+1;HARM-1;HARM.1;HARME1;HARMX1",
    "PHAS-5;PHAS+5;PHAS.5;PHAS5;PHASE5;PHASE 5;PHASEE5",
    "SENS;SENSE 5;SENSE5;SENS5;SENS?5;SENS5?",
    "SYNC1;SYNCE1;SYNCHRONOUS 1;OFLT19;OFLTE",
    "FREQ1E5;FREQ1;FREQ.1E1;FREQE1;FREQ'1;FREQUENCY 1",
    "STRT;START;STOP;PAUSE;PAUS;REST;RESET;TRIG;TRIGGER",
    "SPTS?;SPTS;SPT?;TRCB?;TRCL?;TRC? 1,0,1;TRCC? 1,0,1",
    "(RST;)RST;+RST;{RST;JRST;\nRST;:RST",
];

/// Spaces, CR and letter case, inside names and numbers too; other bytes that stay.
const SPACES_AND_CASE: &[&str] = &[
    "",
    " ",
    "\r",
    " \r \r ",
    " ; \r;  ",
    "P H A S 1 2 . 5 E 1",
    "\rP\rH\rA\rS\r4\r.\r5\r",
    "   PHAS   45   ",
    "phas 45",
    "pHaS 4.5e1",
    "PhAs 45E+0",
    "*r s T",
    "* RST",
    "*\rRST\r",
    "* e s e 3 , 1",
    "* e s e ? 3",
    "oexp ? 1",
    "oexp 1 , - 1 0 5 . 0 0 , 2",
    "trcb ? 1 , 0 , 2",
    "*idn ?",
    "*IDN?\r",
    "FREQ 1 2 3 4 . 5 6",
    "FREQ 1 e 3",
    "FREQ 1E - 3",
    "FREQ - 1",
    "HARM 1 0 2",
    "HARM\r102",
    "HARM\t5",
    "HARM 5\t",
    "\tHARM 5",
    "HARM\n5",
    "HARM 5\n",
    "\nHARM 5",
    "HARM 5\r\n",
    "HARM\x0b5",
    "HARM\x0c5",
    "HARM\x005",
    "HARM 5\x00",
    "\x00",
    "\t",
    "\n",
    "HARM\u{a0}5",
    "HARM 5\u{a0}",
    "HÄRM 5",
    "HARM ٥",
    "harm 5;Harm 5;hARM 5;HARm 5;hARm5",
];

/// Several commands on a line, empty ones among them.
const PLACES: &[&str] = &[
    ";",
    ";;",
    ";HARM 5",
    "HARM 5;",
    ";;HARM 5;;",
    "HARM 5;HARM 6",
    "HARM 0;HARM 6;HARM X",
    "HARM X;HARM 0;HARM 6",
    ";HARM X;;HARM 0;;;HARM 6;",
    "PHAS 1;PHAS?;FREQ 2;FREQ?;SLVL 3;SLVL?;AUXV 1,4;AUXV?1",
    "*CLS;*ESE 32;*SRE 32;*ESR?;*STB?",
    "*RST;PHAS 45;FMOD 1;FREQ 137.5;HARM 3;SLVL .5;SENS 17;OFLT 10;SYNC 1",
    "SRAT 14;SEND 0;TSTR 1;STRT;TRIG;PAUS;SPTS?;REST",
    "HARM 5,;HARM 5",
    "HARM 5:HARM 6",
    "HARM 5;;\r; ;HARM?",
    "DDEF 1;2;3",
    "FREQ 1;E3",
];

/// Lines of 255, 256 and 257 bytes.
fn long_lines() -> Vec<Vec<u8>> {
    let mut lines = Vec::new();
    for length in MOST_LINE_BYTES - 1..=MOST_LINE_BYTES + 1 {
        lines.push(";".repeat(length));
        lines.push(" ".repeat(length));
        lines.push("A".repeat(length));
        lines.push(format!("HARM{:>1$}", 5, length - 4));
        lines.push(format!("{:\r<1$}", "HARM 5", length));
        lines.push("*RST;".chars().cycle().take(length).collect());
        lines.push("HARM ".chars().chain(std::iter::repeat('1')).take(length).collect());
    }
    lines.into_iter().map(String::into_bytes).collect()
}

/// Each byte value in a number and in a name.
fn single_bytes() -> impl Iterator<Item = Vec<u8>> {
    (0..=255u8).map(|byte| {
        let [number, name, end] = [[b"HARM 1", &[byte][..], b"2"], [b"H", &[byte], b"RM 3"], [b"HARM", &[byte], b""]]
            .map(|parts| parts.concat());
        [number, name, end].join(&b';')
    })
}
