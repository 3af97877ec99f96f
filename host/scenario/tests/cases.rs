//! Cases: what is read, what is printed, what is refused, and what is told to people.

use scenario::*;

const MIXED: &str = "case one endpoint # of it
  rawread
room 300
  speed 4
 bytes 09021900010100803209040000010300000007058103080004
go
scenario between
release
go
end
case and back
rawwrite
speed 3
list 00400000 40000000 a3808410
go
case none
rawread
go
case settings
toold
  settings 010800040c00
  speed 255
  room 70
  list 00400000 40000000
go
case no settings
tonew
go
case shown
block
 dci 3
from output
  output 0aFF
input 00
go
case nothing shown
block
go
";

/// Every slot waits, and is served in the order of its submissions.
#[derive(Default)]
struct Queue(Vec<u8>);

impl Dispatch for Queue {
    fn submit(&mut self, slot: u8) -> u8 {
        self.0.push(slot);
        0
    }

    fn turn(&mut self) -> Option<u8> {
        (!self.0.is_empty()).then(|| self.0.remove(0))
    }
}

/// Nobody waits.
struct Nobody(u8);

impl Dispatch for Nobody {
    fn submit(&mut self, _: u8) -> u8 {
        self.0
    }

    fn turn(&mut self) -> Option<u8> {
        None
    }
}

/// Writes into all it is given: the count is the first byte's, or the words'.
struct Scribe;

impl Functions for Scribe {
    fn dispatcher(&self) -> Box<dyn Dispatch> {
        Box::new(Queue::default())
    }

    fn read_descriptors(&self, bytes: &[u8], _: u8, words: &mut [u32]) -> Reply {
        let count = usize::from(bytes[0]);
        words[..count].fill(0x4000_0000);
        Reply { number: 0, count }
    }

    fn write_descriptors(&self, list: &[u32], _: u8, bytes: &mut [u8]) -> Reply {
        bytes[..list.len()].fill(7);
        Reply { number: 0, count: list.len() }
    }

    fn settings_to_new(&self, settings: &[u8], list: &[u32], _: u8, bytes: &mut [u8]) -> Reply {
        bytes[..settings.len()].copy_from_slice(settings);
        bytes[settings.len()] = list.len() as u8;
        Reply { number: 0, count: settings.len() + 1 }
    }

    fn settings_to_old(&self, settings: &[u8], list: &[u32], speed: u8, bytes: &mut [u8]) -> Reply {
        self.settings_to_new(&settings[1..], list, speed, bytes)
    }

    fn endpoint_block<'a>(&self, input: &'a [u8], output: &'a [u8], from: Side, dci: u8) -> (u8, &'a [u8]) {
        let shown = if from == Side::Input { input } else { output };
        (0, &shown[usize::from(dci)..])
    }

    fn choose(&self, record: &Record, names: &[u8], longest: u32) -> Chosen {
        let alternates = names.iter().map(|name| name + record.speed + longest as u8).collect();
        Chosen { number: 0, alternates }
    }
}

/// Refuses everything with one number.
struct Refuses(u8);

impl Functions for Refuses {
    fn dispatcher(&self) -> Box<dyn Dispatch> {
        Box::new(Nobody(self.0))
    }

    fn read_descriptors(&self, _: &[u8], _: u8, _: &mut [u32]) -> Reply {
        Reply { number: self.0, count: 0 }
    }

    fn write_descriptors(&self, _: &[u32], _: u8, _: &mut [u8]) -> Reply {
        Reply { number: self.0, count: 0 }
    }

    fn settings_to_new(&self, _: &[u8], _: &[u32], _: u8, _: &mut [u8]) -> Reply {
        Reply { number: self.0, count: 0 }
    }

    fn settings_to_old(&self, _: &[u8], _: &[u32], _: u8, _: &mut [u8]) -> Reply {
        Reply { number: self.0, count: 0 }
    }

    fn endpoint_block<'a>(&self, _: &'a [u8], _: &'a [u8], _: Side, _: u8) -> (u8, &'a [u8]) {
        (self.0, &[])
    }

    /// Of no names there always is a choice.
    fn choose(&self, _: &Record, names: &[u8], _: u32) -> Chosen {
        Chosen { number: if self.0 == 30 && names.is_empty() { 0 } else { self.0 }, alternates: Vec::new() }
    }
}

fn error(text: &str) -> (usize, String) {
    let malformed = parse(text).expect_err("a malformed line");
    (malformed.line, malformed.message)
}

fn one(kind: &str) -> Case {
    let mut contents = parse(&format!("case one\n{kind}\ngo\n")).expect("a case");
    contents.cases.remove(0)
}

fn run(functions: &dyn Functions, kind: &str) -> String {
    let mut out = String::new();
    one(kind).run(functions, &mut out);
    out
}

fn explained(functions: &dyn Functions, kind: &str) -> String {
    let mut out = String::new();
    one(kind).explain(functions, &mut out);
    out
}

fn texts(cases: &[Case]) -> Vec<String> {
    let text = |case: &Case| {
        let mut out = String::new();
        case.text(&mut out);
        out
    };
    cases.iter().map(text).collect()
}

#[test]
fn cases_and_scenarios_stand_in_one_file() {
    let read = parse(MIXED).expect("cases and a scenario");
    assert_eq!(read.scenarios.len(), 1);
    let bytes = "09021900010100803209040000010300000007058103080004";
    let expected = [
        format!("case one endpoint\nrawread\nspeed 4\nbytes {bytes}\nroom 300\ngo\n"),
        "case and back\nrawwrite\nspeed 3\nlist 00400000 40000000 a3808410\ngo\n".to_string(),
        "case none\nrawread\nspeed 0\nbytes\ngo\n".to_string(),
        "case settings\ntoold\nspeed 255\nlist 00400000 40000000\nsettings 010800040c00\nroom 70\ngo\n".to_string(),
        "case no settings\ntonew\nspeed 0\nlist\nsettings\ngo\n".to_string(),
        "case shown\nblock\ninput 00\noutput 0aff\nfrom output\ndci 3\ngo\n".to_string(),
        "case nothing shown\nblock\ninput\noutput\nfrom input\ndci 0\ngo\n".to_string(),
    ];
    assert_eq!(texts(&read.cases), expected);
    let again = parse(&texts(&read.cases).concat()).expect("the same");
    assert_eq!(texts(&again.cases), expected);
}

#[test]
fn the_first_bad_line_is_named() {
    assert_eq!(error("\ncase # a\n"), (2, "the name is missing".to_string()));
    assert_eq!(error("rawread\n"), (1, "'rawread' stands outside a scenario or a case".to_string()));
    assert_eq!(error("case a\nclaim\n"), (2, "there is no kind of case 'claim'".to_string()));
    assert_eq!(error("case a\nrawread\nlist 00400000\n"), (3, "'rawread' has no 'list'".to_string()));
    assert_eq!(error("case a\nrawwrite\nbytes 00\n"), (3, "'rawwrite' has no 'bytes'".to_string()));
    assert_eq!(error("case a\nrawread\nspeed 256\n").0, 3);
    assert_eq!(error("case a\ntonew\nspeed\n"), (3, "a number is missing".to_string()));
    assert_eq!(error("case a\nblock\nspeed 4\n"), (3, "'block' has no 'speed'".to_string()));
    assert_eq!(error("case a\nrawread\nroom 1\nroom 1\n"), (4, "'room' is given twice".to_string()));
    assert_eq!(error("case a\nrawread\nbytes 123\n").0, 3);
    assert_eq!(error("case a\nrawread\nbytes 12 3\n"), (3, "bytes are two hexadecimal digits each".to_string()));
    assert_eq!(error("case a\nrawread\nroom -1\n").0, 3);
    assert_eq!(error("case a\nrawread\nroom 16777217\n").0, 3);
    assert_eq!(error("case a\nrawread\nroom\n").0, 3);
    assert_eq!(error("case a\nrawwrite\nlist 123456789\n").0, 3);
    assert_eq!(error("case a\ntonew\nbytes 00\n"), (3, "'tonew' has no 'bytes'".to_string()));
    assert_eq!(error("case a\ntoold\nsettings 00:1\n").0, 3);
    assert_eq!(error("case a\ntoold\nsettings 0\n").0, 3);
    assert_eq!(error("case a\nblock\nroom 1\n"), (3, "'block' has no 'room'".to_string()));
    assert_eq!(error("case a\nblock\nfrom both\n"), (3, "'both' is neither input nor output".to_string()));
    assert_eq!(error("case a\nblock\nfrom\n"), (3, "the context is missing".to_string()));
    assert_eq!(error("case a\nblock\ndci 256\n").0, 3);
    assert_eq!(error("case a\nblock\ninput 0\n").0, 3);
    assert_eq!(error("case a\nrawread now\n").0, 2);
    assert_eq!(error("case a\nrawread\ngo now\n").0, 3);
    assert_eq!(error("case a\nrawread\ngo\nrawread\n").0, 4);
    assert_eq!(error("case a\nrawread\ngo\nend\n").0, 4);
    assert_eq!(error("case a\ngo\n").0, 2);
    assert_eq!(error("case a\nrawread\n"), (2, "the case has no 'go'".to_string()));
    assert_eq!(error("case a\n"), (1, "the case has no 'go'".to_string()));
    assert_eq!(error("scenario a\ncase b\n"), (2, "the scenario before this line has no 'end'".to_string()));
}

#[test]
fn the_memory_is_filled_and_printed_whole() {
    let words = run(&Scribe, "rawread\nbytes 02\nroom 4");
    assert_eq!(words, "answer 0 2\nwords 40000000 40000000 a5000002 a5000003\n.\n");
    let bytes = run(&Scribe, "rawwrite\nlist 1 2\nroom 93");
    let rest: String = (2..93).map(|i: u32| format!("{:02x}", (0xA5 + i) % 256)).collect();
    assert_eq!(bytes, format!("answer 0 2\nbytes 0707{rest}\n.\n"));
    assert_eq!(run(&Refuses(3), "rawread\nroom 2"), "answer 3 0\nwords a5000000 a5000001\n.\n");
    assert_eq!(run(&Refuses(3), "rawwrite\nroom 0"), "answer 3 0\nbytes\n.\n");
    assert_eq!(run(&Refuses(3), "rawread\nroom 0"), "answer 3 0\nwords\n.\n");
    let [new, old] = ["tonew", "toold"].map(|kind| run(&Scribe, &format!("{kind}\nsettings 0102\nlist 0 0 0\nroom 5")));
    assert_eq!(new, "answer 0 3\nbytes 010203a8a9\n.\n");
    assert_eq!(old, "answer 0 2\nbytes 0203a7a8a9\n.\n");
    assert_eq!(run(&Refuses(23), "toold\nroom 2"), "answer 23 0\nbytes a5a6\n.\n");
}

#[test]
fn without_room_as_much_as_is_asked_for() {
    let lines = |text: String| text.lines().nth(1).expect("memory").to_string();
    assert_eq!(lines(run(&Refuses(20), "rawread")).split(' ').count(), 1 + 256);
    assert_eq!(lines(run(&Refuses(20), "rawwrite")).len(), "bytes ".len() + 2 * 2304);
    for kind in ["tonew", "toold"] {
        assert_eq!(lines(run(&Refuses(23), kind)).len(), "bytes ".len() + 2 * 66);
    }
}

fn told_bytes(bytes: &[u8]) -> Vec<String> {
    let digits: String = bytes.iter().map(|byte| format!("{byte:02x}")).collect();
    let text = explained(&Refuses(20), &format!("rawread\nbytes {digits}"));
    text.lines().skip(3).map(|line| line.trim().to_string()).take_while(|line| !line.starts_with("answer")).collect()
}

#[test]
fn bytes_are_told_as_descriptors() {
    let configuration = [9, 2, 50, 0, 2, 7, 0, 0x80, 50];
    let hub = [3, 41, 0xFF];
    let interface = [10, 4, 3, 1, 2, 0, 0, 0, 0, 0];
    let input = [7, 5, 0x82, 3, 0xFF, 0x0F, 4];
    let output = [7, 5, 0x0F, 1, 0, 0x1C, 1];
    let bytes = [&configuration[..], &hub, &interface, &input, &output, &configuration].concat();
    let expected = [
        "0  configuration 7, total length 50 (should be 36), interfaces 2 (should be 1)",
        "9  type 41, 3 bytes",
        "12    interface 3, alternate 1, endpoints 2",
        "22      endpoint 82, IN, interrupt, size 2047, packets 2, interval 4",
        "29      endpoint 0f, OUT, isochronous, size 1024, packets 4 (at most 3), interval 1",
        "36  configuration 7, total length 50 (should be 9), interfaces 2 (should be 0)",
    ];
    assert_eq!(told_bytes(&bytes), expected);
    let broken = ["0  configuration 7, total length 50, interfaces 2", "9  type 4, length 9: past the end"];
    assert_eq!(told_bytes(&[&configuration[..], &[9, 4, 0]].concat()), broken);
    assert_eq!(told_bytes(&[2, 1, 6, 5, 0, 0, 0, 0]), ["0  type 1, 2 bytes", "2  type 5, length 6: less than 7"]);
    assert_eq!(told_bytes(&[0, 0]), ["0  type 0, length 0: less than 2"]);
    assert_eq!(told_bytes(&[2, 0, 2]), ["0  type 0, 2 bytes", "2  one byte, without a type"]);
    assert_eq!(told_bytes(&[]), [""; 0]);
}

#[test]
fn words_are_told_as_descriptors() {
    let expected = "case one

5 words to bytes at speed 0, room for 2304
    configuration 1
      interface 0, alternate 255
        endpoint 81, IN, interrupt, size 8, packets 1, interval 4
        endpoint 0f, OUT, control, size 2047, packets 0, interval 255, unused bits 3
          companion, burst 10, mult 1, bytes per interval 4660, unused bits 1
  answer 4: refused: the descriptor list is not valid
    word 4 of 5, 9e7ff3ff: unused bits are set

";
    assert_eq!(explained(&Refuses(4), "rawwrite\nlist 00400000 403fc000 a3808410 9e7ff3ff e9123401"), expected);
}

/// At speeds 4 and 5 a companion is told with its fields; else it is a descriptor of another type.
#[test]
fn companions_are_told() {
    let told = |speed: u8, bytes: &str| -> Vec<String> {
        let text = explained(&Refuses(20), &format!("rawread\nspeed {speed}\nbytes {bytes}"));
        text.lines()
            .skip(3)
            .map(|line| line.trim().to_string())
            .take_while(|line| !line.starts_with("answer"))
            .collect()
    };
    let bytes = "0705810108000406300f063412053001";
    let endpoint = "0      endpoint 81, IN, isochronous, size 8, packets 1, interval 4";
    for speed in [4, 5] {
        let companion = "7        companion, burst 15, mult 2, bytes per interval 4660";
        assert_eq!(told(speed, bytes), [endpoint, companion, "13  type 48, length 5: past the end"]);
    }
    assert_eq!(told(3, bytes), [endpoint, "7  type 48, 6 bytes", "13  type 48, length 5: past the end"]);
    assert_eq!(told(4, "0530010000"), ["0  type 48, length 5: less than 6"]);
}

/// Of a 26, the word or the descriptor and why.
#[test]
fn the_ground_of_a_26_is_told() {
    let last = |kind: &str, keys: &str| {
        let text = explained(&Refuses(26), &format!("{kind}\nspeed 4\n{keys}"));
        assert!(text.contains("answer 26: refused: a companion is missing, misplaced or out of range\n    "), "{text}");
        text.lines().rfind(|line| !line.is_empty()).map_or(String::new(), |line| line.trim().to_string())
    };
    for (words, expected) in [
        ("a3808410", "word 3 of 3, a3808410: no companion stands directly behind this endpoint"),
        ("a3808410 a3808410 c0000000", "word 3 of 5, a3808410: no companion stands directly behind this endpoint"),
        ("c0000000", "word 3 of 3, c0000000: a companion that does not stand directly behind an endpoint"),
        (
            "a3808410 c0000000 c0000000",
            "word 5 of 5, c0000000: a companion that does not stand directly behind an endpoint",
        ),
        ("a3808410 c1000000", "word 4 of 4, c1000000: its mult is 1, and only an isochronous endpoint has one"),
        ("a2808410 c3000000", "word 4 of 4, c3000000: its mult is 3, and 2 is the most behind an isochronous endpoint"),
    ] {
        for kind in ["rawwrite", "tonew", "toold"] {
            assert_eq!(last(kind, &format!("list 00400000 40000000 {words}")), expected);
        }
    }
    for (bytes, expected) in [
        ("07058103080004", "the descriptor at byte 0: no companion stands directly behind this endpoint"),
        (
            "03210006300000000007058103080004",
            "the descriptor at byte 3: a companion that does not stand directly behind an endpoint",
        ),
        ("07058103080004022106301003000000", "the descriptor at byte 9: its burst is 16, and 15 is the most"),
        (
            "07058101080004063000ff0000",
            "the descriptor at byte 7: its mult is 3, and 2 is the most behind an isochronous endpoint",
        ),
    ] {
        assert_eq!(last("rawread", &format!("bytes {bytes}")), expected);
    }
}

#[test]
fn answers_are_told_in_words() {
    let answer = |functions: &dyn Functions, kind: &str| {
        let text = explained(functions, kind);
        text.lines().find(|line| line.starts_with("  answer")).expect("an answer").to_string()
    };
    assert_eq!(answer(&Refuses(3), "rawread"), "  answer 3: refused: the room is too small");
    assert_eq!(answer(&Refuses(20), "rawread"), "  answer 20: refused: the bytes are malformed");
    assert_eq!(answer(&Refuses(20), "rawwrite"), "  answer 20: refused: an endpoint has packets 0");
    let read = explained(&Scribe, "rawread\nbytes 02");
    assert!(read.ends_with(
        "  answer 0: accepted, 2 words\n      interface 0, alternate 0\n      interface 0, alternate 0\n\n"
    ));
}

/// Configuration 1: interface 0 with alternates 0 and 1, interface 3; configuration 2: interface 200.
const LIST: &str = "list 00400000 40000000 40004000 40c00000 00800000 72000000";

/// What stands behind the list.
fn told_settings(functions: &dyn Functions, kind: &str, settings: &str) -> Vec<String> {
    let text = explained(functions, &format!("{kind}\n{LIST}\nsettings {settings}"));
    text.lines().skip(9).filter(|line| !line.is_empty()).map(|line| line.trim().to_string()).collect()
}

#[test]
fn settings_are_told_with_value_and_pairs() {
    let text = explained(&Scribe, "tonew\nlist 00400000 40000000\nsettings 040c");
    let expected = "case one

old settings to new ones at speed 0, room for 66
    configuration 1
      interface 0, alternate 0
  old settings 040c
      interface 4, alternate 12
  answer 0: accepted, 3 bytes
  new settings 040c02
    configuration 4, pairs 3

";
    assert_eq!(text, expected);
    let old = ["interface 0, alternate 1", "interface 3, alternate 0"];
    let new = [&["new settings 010800040c00", "configuration 1, pairs 2"][..], &old].concat();
    let refused = ["answer 24: refused: the settings are of another configuration than the first"];
    assert_eq!(told_settings(&Refuses(24), "toold", "010800040c00"), [&new[..], &refused].concat());
    assert_eq!(told_settings(&Refuses(3), "toold", ""), ["new settings", "answer 3: refused: the room is too small"]);
}

/// The ground of a 23 that is told, of settings of the old or the new form.
fn ground(kind: &str, settings: &str) -> String {
    let told = told_settings(&Refuses(23), kind, settings);
    let at = told.iter().position(|line| line == "answer 23: refused: the settings are malformed or not found");
    assert_eq!(at, Some(told.len() - 2));
    told.last().cloned().unwrap_or_default()
}

#[test]
fn the_ground_of_a_23_is_told() {
    let many: String = (0..33).map(|interface| format!("{interface:02x}00")).collect();
    for (settings, expected) in [
        ("00", "bytes: 1, an odd number"),
        ("000103", "bytes: 3, an odd number"),
        ("03000001", "pair 2: interface 0 behind interface 3"),
        ("00010001", "pair 2: interface 0 behind interface 0"),
        ("00010302", "pair 2: configuration 1 has no interface 3, alternate 2"),
        ("c800", "pair 1: configuration 1 has no interface 200, alternate 0"),
        (&many, "pairs: 33, and 32 are allowed"),
    ] {
        assert_eq!(ground("tonew", settings), expected);
    }
    for (settings, expected) in [
        ("", "bytes: 0, and value and count take 2"),
        ("01", "bytes: 1, and value and count take 2"),
        ("0104", "bytes: 2, and a count of 1 takes 4"),
        ("0108000400", "bytes: 5, and a count of 2 takes 6"),
        ("010000", "bytes: 3, and a count of 0 takes 2"),
        ("0102", "the bits past the last pair are not 0"),
        ("0300", "the list has no configuration 3"),
        ("0104000c", "pair 1: configuration 1 has no interface 0, alternate 3"),
        ("0204000c", "pair 1: configuration 2 has no interface 0, alternate 3"),
        ("01080c000004", "pair 2: interface 0 behind interface 3"),
    ] {
        assert_eq!(ground("toold", settings), expected);
    }
    let empty = explained(&Refuses(23), "tonew");
    assert!(empty.ends_with("not found\n    the list has no configuration\n\n"));
}

/// Where the part stands is worked out from its address.
#[test]
fn a_block_is_printed_with_its_place() {
    let shown = |keys: &str| run(&Scribe, &format!("block\n{keys}"));
    assert_eq!(shown("dci 1\ninput 0a0b0c\noutput 00"), "answer 0\npart 1 2\nbytes 0b0c\n.\n");
    assert_eq!(shown("dci 2\nfrom input\ninput 0a0b0c"), "answer 0\npart 2 1\nbytes 0c\n.\n");
    assert_eq!(shown("from output\ninput 0a0b0c\noutput 0d"), "answer 0\npart 0 1\nbytes 0d\n.\n");
    assert_eq!(shown("dci 1\ninput 0a"), "answer 0\npart 0 0\nbytes\n.\n");
    assert_eq!(run(&Refuses(4), "block\ninput 0a0b"), "answer 4\npart 0 0\nbytes\n.\n");
}

/// Each field of the block, by itself, and no other is told otherwise than where all is 0.
#[test]
fn a_block_is_told_field_by_field() {
    let told = |bytes: &[u8]| -> Vec<String> {
        let digits: String = bytes.iter().map(|byte| format!("{byte:02x}")).collect();
        let text = explained(&Scribe, &format!("block\nfrom output\noutput {digits}"));
        text.lines().skip(4).filter(|line| !line.is_empty()).map(|line| line.trim().to_string()).collect()
    };
    let none = told(&[0; 32]);
    let names = ["state", "type", "ring (dequeue pointer)", "cycle state", "max packet size", "max burst size", "mult"];
    let more = ["interval", "average TRB length", "max ESIT payload low", "max ESIT payload high", "error count"];
    let last = ["max primary streams", "linear stream array", "host initiate disable"];
    let starts: Vec<&str> = names.into_iter().chain(more).chain(last).collect();
    assert_eq!(none.len(), starts.len());
    assert!(none.iter().zip(&starts).all(|(line, name)| line.starts_with(name)), "{none:?}");
    // Bits of xHCI 1.2, section 6.2.3: from, width, and what their greatest value reads.
    for (from, width, line) in [
        (0, 3, "state                  reserved (7)"),
        (8, 2, "mult                   3"),
        (10, 5, "max primary streams    31"),
        (15, 1, "linear stream array    1"),
        (16, 8, "interval               255"),
        (24, 8, "max ESIT payload high  255"),
        (33, 2, "error count            3"),
        (35, 3, "type                   interrupt IN"),
        (39, 1, "host initiate disable  1"),
        (40, 8, "max burst size         255"),
        (48, 16, "max packet size        65535"),
        (64, 1, "cycle state            1"),
        (68, 60, "ring (dequeue pointer) 0xfffffffffffffff0"),
        (128, 16, "average TRB length     65535"),
        (144, 16, "max ESIT payload low   65535"),
        (3, 5, "reserved, doubleword 0: 000000f8"),
        (32, 1, "reserved, doubleword 1: 00000001"),
        (38, 1, "reserved, doubleword 1: 00000040"),
        (65, 3, "reserved, doubleword 2: 0000000e"),
        (160, 32, "reserved, doubleword 5: ffffffff"),
        (255, 1, "reserved, doubleword 7: 80000000"),
        (256, 1, "reserved, doubleword 8: 00000001"),
        (511, 1, "reserved, doubleword 15: 80000000"),
    ] {
        let mut bytes = [0; 64];
        (from..from + width).for_each(|bit| bytes[bit / 8] |= 1 << (bit % 8));
        let lines = told(&bytes);
        let other: Vec<&String> = lines.iter().filter(|line| !none.contains(line)).collect();
        // An interrupt endpoint has a period.
        let expected = if from == 35 { vec![line, "interval               0, every 125 us"] } else { vec![line] };
        assert_eq!(other, expected);
    }
    let states: Vec<String> = (0..6).map(|state| told(&[&[state][..], &[0; 31]].concat())[0].clone()).collect();
    let named = ["disabled", "running", "halted", "stopped", "error", "reserved (5)"];
    assert!(
        states.iter().zip(named).all(|(line, name)| *line == format!("state                  {name}")),
        "{states:?}"
    );
}

#[test]
fn a_block_is_told_with_what_is_lent() {
    let text = explained(&Refuses(1), "block\ndci 31\ninput 0000");
    let expected = "case one

the block of endpoint 8f (Dci 31) in the input context; lent: input 2 bytes, output 0
  answer 1: refused: lent must be 1056 bytes of input and 1024 of output, or 2112 and 2048

";
    assert_eq!(text, expected);
    let text = explained(&Refuses(4), "block\nfrom output\ndci 32");
    assert!(text.contains("the block of Dci 32 in the output context"), "{text}");
    assert!(text.ends_with("  answer 4: refused: a Dci is 1 to 31\n\n"), "{text}");
}

const FIT: &str = "choose
record usable=1 up=1 slot=1 n=1 spacing=32 speed=3 config=1 control=1000/active
reclist 00400000 40000000 a3808404 40004000 a5808404 40400000 a3808404
eps
held
quarantined
given 1000
names 0 1 0
longest 2
";

#[test]
fn a_choice_is_read_and_printed() {
    let text = format!("case fit\n{FIT}go\n");
    let case = parse(&text).expect("a case").cases.remove(0);
    let mut again = String::new();
    case.text(&mut again);
    assert_eq!(again, text);
    let ran = |functions: &dyn Functions, case: &Case| {
        let mut out = String::new();
        case.run(functions, &mut out);
        out
    };
    assert_eq!(ran(&Scribe, &case), "answer 0\nalternates 5 6 5\n.\n");
    assert_eq!(ran(&Refuses(30), &case), "answer 30\nalternates\n.\n");
    // Absent numbers are 0, absent lists empty.
    let none = parse("case none\nchoose\nnames 200\ngo\n").expect("a case").cases.remove(0);
    assert_eq!(ran(&Scribe, &none), "answer 0\nalternates 200\n.\n");
}

#[test]
fn a_malformed_choice_is_named_by_its_line() {
    for (line, message) in [
        ("names 256", "'256' is not a decimal number, or out of range"),
        ("names 0 x", "'x' is not a decimal number, or out of range"),
        ("longest", "a number is missing"),
        ("longest 4294967296", "'4294967296' is not a decimal number, or out of range"),
        ("longest 1 2", "'2' is too much"),
        ("record usable=1 up=0", "a usable record is up"),
        ("record slot=1 slot=1", "'slot' is given twice"),
        ("outcomes 00", "'choose' has no 'outcomes'"),
    ] {
        let text = format!("case wrong\nchoose\n{line}\ngo\n");
        assert_eq!(parse(&text).unwrap_err(), Malformed { line: 3, message: message.to_string() });
    }
    assert_eq!(parse("case twice\nchoose\nnames 1\nnames 1\ngo\n").unwrap_err().message, "'names' is given twice");
}

#[test]
fn a_choice_is_told_with_periods() {
    let told = explained(&Scribe, FIT);
    let (_, behind) = told.split_once("    configuration 1\n").expect("the list");
    let answer = behind.split_once("  answer").expect("the answer").1;
    // The scribe's alternates are not there, so nothing is polled.
    assert_eq!(
        answer,
        " 0: accepted\n    interface 0: alternate 5\n    interface 1: alternate 6\n    interface 0: alternate 5\n\n"
    );
    let begins =
        "case one\n\nchoice for interfaces 0 1 0\n  speed 3, longest context interval 2, 500 us\n    configuration 1\n";
    assert!(told.starts_with(begins), "{told}");
    let many = explained(&Refuses(29), "choose\nnames 0 0 0 0 0 0 0 0 0\nlongest 4294967295");
    assert!(many.starts_with(
        "case one\n\nchoice for interfaces 0 0 0 0 0 0 0 0 0\n  speed 0, longest context interval 4294967295\n"
    ));
    assert!(
        many.ends_with("  answer 29: refused: there are more than eight names\n    names: 9, and 8 are allowed\n\n")
    );
    // A name without a candidate, by the one who refuses.
    let none =
        explained(&Refuses(30), "choose\nrecord speed=1\nreclist 00400000 40000000 a3808418\nnames 0 1\nlongest 3");
    let expected = "  answer 30: refused: there is no such choice
    interface 0 has no candidate:
      alternate 0: endpoint 81 is polled every 4000 us
    interface 1 has no candidate: it is not in the first configuration

";
    assert!(none.ends_with(expected), "{none}");
}

const TURNS: &str = "dispatch
submit 7
turn
submit 7
submit 255
submit 0
turn
turn
turn
turn
";

#[test]
fn turns_are_read_and_printed_in_their_order() {
    let text = format!("case turns\n{TURNS}go\n");
    let case = parse(&text).expect("a case").cases.remove(0);
    let mut again = String::new();
    case.text(&mut again);
    assert_eq!(again, text);
    let printed = "submit 7 0\nturn 7\nsubmit 7 0\nsubmit 255 0\nsubmit 0 0\nturn 7\nturn 255\nturn 0\nturn none\n.\n";
    let mut out = String::new();
    case.run(&Scribe, &mut out);
    assert_eq!(out, printed);
    assert_eq!(run(&Refuses(28), "dispatch\nsubmit 1\nturn"), "submit 1 28\nturn none\n.\n");
    assert_eq!(run(&Scribe, "dispatch"), ".\n");
    for (line, message) in [
        ("submit 256", "'256' is not a decimal number, or out of range"),
        ("submit", "a number is missing"),
        ("turn 7", "'7' is too much"),
        ("room 3", "'dispatch' has no 'room'"),
    ] {
        assert_eq!(error(&format!("case a\ndispatch\n{line}\n")), (3, message.to_string()));
    }
}

#[test]
fn turns_are_told_with_how_many_came_between() {
    let told = explained(&Scribe, TURNS);
    let lines: Vec<&str> = told.lines().collect();
    assert_eq!(lines[2..4], ["  a call of slot 7: it waits", "  a turn: slot 7, after 0 others"]);
    assert_eq!(
        lines[7..11],
        [
            "  a turn: slot 7, after 0 others",
            "  a turn: slot 255, after 1 others",
            "  a turn: slot 0, after 2 others",
            "  a turn: none waits"
        ]
    );
    let refused = explained(&Refuses(27), "dispatch\nsubmit 1");
    assert!(refused.contains("  a call of slot 1: refused, 27: a call of the slot is waiting\n"), "{refused}");
}
