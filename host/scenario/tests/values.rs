//! Values as people write them: hexadecimal numbers with their mark, bytes with blanks and colons, zeros by their number,
//! raw descriptors.

use scenario::*;

fn steps(calls: &str) -> Vec<Step> {
    let mut contents = parse(&format!("scenario one\n{calls}end\n")).expect("a scenario");
    contents.scenarios.remove(0).steps
}

fn one(call: &str) -> Step {
    steps(&format!("{call}\ngo\n")).remove(0)
}

fn error(text: &str) -> (usize, String) {
    let malformed = parse(text).expect_err("a malformed line");
    (malformed.line, malformed.message)
}

/// The same calls twice; in the second each number is hexadecimal, and has the mark that the first's hexadecimal ones
/// have not.
const CALLS: [&str; 2] = [
    "bringup
slot 13
n 200
speed 3
parent 1 12
port 20
rootport 10
rings 8192 4096
header 18 64
config 15
list 00400000 40000000
hubs c000400300000000
ctxlen 1056
routes 97=1000 60=ffffffffffffffff
routeslen 6432
loglen 70
outcomes 000007
go
claim
interface 10
alternate 11
record usable=1 up=1 slot=13 n=200 spacing=32 speed=3 config=15 control=1000/active
reclist 00400000
eps 81:2000:10:active
held 10:12
quarantined 50 40
given 3000 50
go
commit
asked 10 11 00000008 0000001c 2000 10
go
hubupdate
ports 10
multi 1
think 666
go
release
interface 10
go
setconfig
value 10
go
",
    "bringup
slot 0xd
n 0xC8
speed 0x3
parent 0x1 0xc
port 0x14
rootport 0xa
rings 0x2000 0x1000
header 0x12 0x40
config 0xf
list 0x00400000 0x40000000
hubs 0xc000400300000000
ctxlen 0x420
routes 0x61=0x1000 0x3c=0xffffffffffffffff
routeslen 0x1920
loglen 0x46
outcomes 0x00 0x00 0x07
go
claim
interface 0xa
alternate 0xb
record usable=0x1 up=0x1 slot=0xd n=0xc8 spacing=0x20 speed=0x3 config=0xf control=0x1000/active
reclist 0x00400000
eps 0x81:0x2000:0xa:active
held 0xa:0xc
quarantined 0x50 0x40
given 0x3000 0x50
go
commit
asked 0xa 0xb 0x00000008 0x0000001c 0x2000 0x10
go
hubupdate
ports 0xa
multi 0x1
think 0x29a
go
release
interface 0xa
go
setconfig
value 0xa
go
",
];

const CASES: [&str; 2] = [
    "case a
rawread
speed 4
bytes 0902ff
room 300
go
case b
toold
speed 3
list 00400000
settings 010800040c00
room 70
go
case c
block
input 0aff
output 0b
dci 12
go
case d
choose
names 0 10
longest 11
go
case e
dispatch
submit 10
turn
go
",
    "case a
rawread
speed 0x4
bytes 0x09:02 0xFF
room 0x12c
go
case b
toold
speed 0x3
list 0x00400000
settings 01:08:00:04:0c:00
room 0x46
go
case c
block
input 0A:ff
output 0x0b
dci 0xc
go
case d
choose
names 0x0 0xa
longest 0xb
go
case e
dispatch
submit 0xa
turn
go
",
];

#[test]
fn a_number_with_its_mark_is_hexadecimal() {
    let [plain, marked] = CALLS.map(steps);
    assert_eq!(plain, marked);
    assert_eq!(plain.len(), 6);
    let texts = CASES.map(|text| {
        let mut out = String::new();
        parse(text).expect("cases").cases.iter().for_each(|case| case.text(&mut out));
        out
    });
    assert_eq!(texts[0], texts[1]);
    let asked = parse("scenario a\ndispatcher\nrelease\non 0x10\nsubmit\nend\n").expect("a scenario");
    assert!(matches!(&asked.dispatched[0].lines[..], [Line::Submit(Submission { home: 16, .. })]));
}

#[test]
fn what_is_no_number_is_named() {
    for (line, message) in [
        ("interface 0x", "'0x' is not a hexadecimal number, or out of range"),
        ("interface 0x100", "'0x100' is not a hexadecimal number, or out of range"),
        ("interface 0xg", "'0xg' is not a hexadecimal number, or out of range"),
        ("interface 0x0x1", "'0x0x1' is not a hexadecimal number, or out of range"),
        ("interface 1a", "'1a' is not a decimal number, or out of range"),
        ("interface -0x1", "'-0x1' is not a decimal number, or out of range"),
        ("reclist 0x", "'0x' is not a hexadecimal number of at most 8 digits"),
        ("reclist 0x123456789", "'0x123456789' is not a hexadecimal number of at most 8 digits"),
        ("reclist 0x0x1", "'0x0x1' is not a hexadecimal number of at most 8 digits"),
        ("record usable=0x2", "'0x2' is neither 0 nor 1"),
        ("routeslen 0x1000001", "16777217 is more than 16777216"),
    ] {
        assert_eq!(error(&format!("scenario a\nclaim\n{line}\n")), (3, message.to_string()));
    }
}

#[test]
fn bytes_may_stand_apart() {
    for bytes in ["00ffa501", "00 ff a5 01", "00:FF:A5:01", "00ff:a501 # two", "00: ff :a5\t01", "0x00ff 0xa5:0x01"] {
        assert_eq!(one(&format!("claim\nctx {bytes}")).ctx, [0, 0xFF, 0xA5, 1], "{bytes}");
        assert_eq!(one(&format!("claim\noutcomes {bytes}")).outcomes, [0, 0xFF, 0xA5, 1], "{bytes}");
        assert_eq!(one(&format!("bringup\nraw {bytes}")).raw, Some(vec![0, 0xFF, 0xA5, 1]), "{bytes}");
    }
    assert_eq!(one("claim\nctx").ctx, []);
    for bytes in ["0", "000", "0 0", "00:f", "00,ff", "0x", "0x0", "00 0xx", "0x0x00", "+1"] {
        let message = "bytes are two hexadecimal digits each".to_string();
        assert_eq!(error(&format!("scenario a\nclaim\nctx {bytes}\n")), (3, message), "{bytes}");
    }
}

#[test]
fn a_context_of_zeros_is_given_by_its_length() {
    assert_eq!(one("claim\nctxlen 1056").ctx, [0; 1056]);
    assert_eq!(one("claim\nctxlen 0").ctx, []);
    let both = "'ctx' and 'ctxlen' are both given".to_string();
    for lines in ["ctx 00\nctxlen 1", "ctxlen 1\nctx 00", "ctxlen 0\nctx"] {
        assert_eq!(error(&format!("scenario a\nclaim\n{lines}\n")), (4, both.clone()));
    }
    assert_eq!(error("scenario a\nclaim\nctxlen 16777217\n"), (3, "16777217 is more than 16777216".to_string()));
    assert_eq!(error("scenario a\nclaim\nctxlen\n").0, 3);
    assert_eq!(error("scenario a\nclaim\nctxlen 1\nctxlen 1\n"), (4, "'ctxlen' is given twice".to_string()));
}

#[test]
fn raw_descriptors_stand_in_place_of_words() {
    let step = one("bringup\nraw 09 02\nspeed 4");
    assert_eq!(step.raw, Some(vec![9, 2]));
    let mut text = String::new();
    step_text(&mut text, &step);
    assert!(text.contains("\nraw 0902\n") && !text.contains("\nlist"), "{text}");
    assert_eq!(steps(&text), [step]);
    let both = "'list' and 'raw' are both given".to_string();
    for lines in ["list\nraw 09", "raw 09\nlist 00400000"] {
        assert_eq!(error(&format!("scenario a\nbringup\n{lines}\n")), (4, both.clone()));
    }
    assert_eq!(error("scenario a\nclaim\nraw 09\n"), (3, "this call has no 'raw'".to_string()));
}

#[test]
fn a_malformed_line_is_named_in_its_file() {
    let malformed = parse("scenario a\nclaim\nno\n").expect_err("a malformed line");
    assert_eq!(malformed.in_file("a/b.txt"), "a/b.txt:3: this call has no 'no'");
}
