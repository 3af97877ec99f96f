//! The text form: what is read, what is printed, what is refused.

use scenario::*;

fn error(text: &str) -> (usize, String) {
    let malformed = parse(text).expect_err("a malformed line");
    (malformed.line, malformed.message)
}

fn one(call: &str) -> Step {
    let text = format!("scenario one\n{call}\ngo\nend\n");
    let mut contents = parse(&text).expect("a scenario");
    contents.scenarios.remove(0).steps.remove(0)
}

const BRING_UP: &str = "scenario all # of it
  bringup
slot 3
n 8
 speed 3
parent 1 2
port 1
rootport 2
rings 8192 4096
header 8 64
config 5
list 00400000 40000000
hubs 8000000000000000
ctx 00FFa5
routes 97=1000 3=ffffffffffffffff
routeslen 288
loglen 70
outcomes 000007
go
end
";

#[test]
fn a_bring_up_is_read() {
    let step = &parse(BRING_UP).expect("a scenario").scenarios[0].steps[0];
    let args = BringUp {
        slot: 3,
        n: 8,
        speed: 3,
        has_parent: true,
        parent: 2,
        port: 1,
        root_port: 2,
        rings: vec![8192, 4096],
        header: 8,
        packet: 64,
        config: 5,
        list: vec![0x0040_0000, 0x4000_0000],
        hubs: vec![1 << 63],
    };
    assert_eq!(step.call, Call::BringUp(args));
    assert_eq!(step.ctx, [0, 0xFF, 0xA5]);
    assert_eq!(step.routes, Some(vec![(97, 0x1000), (3, u64::MAX)]));
    assert_eq!((step.routes_len, step.log_len), (Some(288), 70));
    assert_eq!(step.outcomes, [0, 0, 7]);
}

#[test]
fn what_is_left_out_is_zero_or_empty() {
    let step = one("claim");
    assert_eq!(step, Step::new(Call::Claim(Claim::default())));
    assert_eq!((step.log_len, step.routes, step.record), (64, None, None));
    assert_eq!(one("release\ninterface 7").call, Call::Release { interface: 7 });
    assert_eq!(one("setconfig\nvalue 9").call, Call::SetConfiguration { value: 9 });
    let hub = HubUpdate { ports: 4, multi: true, think: 666 };
    assert_eq!(one("hubupdate\nthink 666\nmulti 1\nports 4").call, Call::HubUpdate(hub));
    assert_eq!(one("disconnect"), Step::new(Call::Disconnect));
    assert_eq!(one("ask\nalternate 2").call, Call::Ask(Claim { interface: 0, alternate: 2 }));
    assert_eq!(one("commit").call, Call::Commit(None));
    assert_eq!(one("why\ninterface 9").call, Call::Why(Claim { interface: 9, alternate: 0 }));
    let asked = Asked { interface: 3, alternate: 255, drops: 8, adds: 0xFFFF_FFFC, rings: vec![0x2000, 16] };
    assert_eq!(one("commit\nasked 3 255 00000008 fffffffc 2000 10").call, Call::Commit(Some(asked)));
}

/// Where `up` is left out it is as `usable`, wherever that stands.
#[test]
fn a_usable_record_is_up() {
    let marks = |fields: &str| {
        let record = one(&format!("disconnect\nrecord {fields}")).record.expect("a record");
        (record.usable, record.up)
    };
    assert_eq!(marks("usable=1"), (true, true));
    assert_eq!(marks("slot=1 usable=1 up=1"), (true, true));
    assert_eq!(marks("up=1 usable=0"), (false, true));
    assert_eq!(marks("usable=0"), (false, false));
    assert_eq!(marks("up=0"), (false, false));
    let message = "a usable record is up".to_string();
    for fields in ["usable=1 up=0", "up=0 slot=1 usable=1"] {
        assert_eq!(error(&format!("scenario a\ndisconnect\nrecord {fields}\n")), (3, message.clone()));
    }
    assert_eq!(error("scenario a\ndisconnect\nrecord up=2\n").0, 3);
    assert_eq!(error("scenario a\ndisconnect\ninterface 1\n").0, 3);
}

#[test]
fn a_record_is_read_in_the_order_written() {
    let step = one("claim
        record usable=1 slot=3 n=8 spacing=32 speed=3 config=NONE control=1000/revoked
        reclist 00400000
        eps 81:2000:0:active 02:3000:1:revoked
        held 1:0 0:1
        quarantined 50 40
        given 3000 50 1000 40 2000");
    let record = step.record.expect("a record");
    assert!(record.usable && record.up && record.control_revoked);
    assert_eq!((record.slot, record.n, record.spacing, record.speed), (3, 8, 32, 3));
    assert_eq!((record.config, record.control), (None, 0x1000));
    assert_eq!(record.endpoints.iter().map(|e| e.address).collect::<Vec<_>>(), [0x81, 2]);
    assert_eq!(record.held, [(1, 0), (0, 1)]);
    assert_eq!(record.quarantined, [0x50, 0x40]);
    assert_eq!(record.given, [0x3000, 0x50, 0x1000, 0x40, 0x2000]);
    assert_eq!(record.sorted().given, [0x40, 0x50, 0x1000, 0x2000, 0x3000]);
    assert_eq!(record.free(), []);
    assert_eq!(record.sorted().held, [(0, 1), (1, 0)]);
}

#[test]
fn what_is_printed_is_read_again() {
    let read = parse(BRING_UP).expect("a scenario").scenarios;
    let mut text = String::new();
    scenario_text(&mut text, &read[0]);
    assert_eq!(parse(&text).expect("the same").scenarios, read);
}

#[test]
fn the_first_bad_line_is_named() {
    assert_eq!(error("\n# nothing\nclaim\n").0, 3);
    assert_eq!(error("scenario a\nclaim\nslot 3\n").0, 3);
    assert_eq!(error("scenario a\nclaim\ninterface 256\n").0, 3);
    assert_eq!(error("scenario a\nclaim\ninterface -1\n").0, 3);
    assert_eq!(error("scenario a\nclaim\ninterface 1 2\n").0, 3);
    assert_eq!(error("scenario a\nclaim\ninterface\n").0, 3);
    assert_eq!(error("scenario a\nclaim\ninterface 1\ninterface 1\n").0, 4);
    assert_eq!(error("scenario a\nclaim\nctx 000\n").0, 3);
    assert_eq!(error("scenario a\nclaim\noutcomes 0g\n").0, 3);
    assert_eq!(error("scenario a\nbringup\nlist 123456789\n").0, 3);
    assert_eq!(error("scenario a\nclaim\nroutes 1=2 1=3\n").0, 3);
    assert_eq!(error("scenario a\nclaim\nrecord usable=1 slot=1 slot=2\n"), (3, "'slot' is given twice".to_string()));
    assert_eq!(error("scenario a\nclaim\neps 81:2000:0:active\ngo\n").0, 4);
    assert_eq!(error("scenario a\nclaim\ngiven 1000\ngo\n").0, 4);
    assert_eq!(error("scenario a\nbringup\nring 4096\n").0, 3);
    assert_eq!(error("scenario a\nclaim\nrings 4096\n").0, 3);
    let many = format!("scenario a\nclaim\nrecord usable=1\ngiven{}\n", " 10".repeat(65));
    assert_eq!(error(&many), (4, "a record has room for 64 of these".to_string()));
    assert_eq!(error("scenario a\nbringup\nrecord usable=1\n").0, 3);
    assert_eq!(error("scenario a\nunplug\n").0, 2);
    assert_eq!(error("scenario a\ncommit\nasked 0 1 00000000\n").0, 3);
    assert_eq!(error("scenario a\ncommit\nasked 0 1 0 123456789\n").0, 3);
    assert_eq!(error("scenario a\ncommit\ninterface 1\n").0, 3);
    assert_eq!(error("scenario a\nask\nasked 0 1 0 0\n").0, 3);
    assert_eq!(error("scenario a\nwhy\nasked 0 1 0 0\n").0, 3);
    assert_eq!(error("scenario a\nwhy\nvalue 0\n").0, 3);
    assert_eq!(error("scenario a\nclaim\ngo\n").0, 3);
    assert_eq!(error("scenario\n").0, 1);
}

#[test]
fn what_has_no_end_is_told_so() {
    let go = (4, "the call before this line has no 'go'".to_string());
    for next in ["end", "claim", "submit", "turn", "scenario b", "case b"] {
        assert_eq!(error(&format!("scenario a\nclaim\ninterface 1\n{next}\n")), go);
    }
    let submit = (4, "the call before this line has no 'submit'".to_string());
    for next in ["end", "claim", "go", "turn"] {
        assert_eq!(error(&format!("scenario a\ndispatcher\nclaim\n{next}\n")), submit);
    }
    for next in ["end", "scenario b", "case b"] {
        let message = "the case before this line has no 'go'".to_string();
        assert_eq!(error(&format!("case a\nrawread\nspeed 3\n{next}\n")), (4, message));
    }
    for next in ["scenario b", "case b"] {
        let message = "the scenario before this line has no 'end'".to_string();
        assert_eq!(error(&format!("scenario a\n{next}\n")), (2, message));
    }
    let message = "a scenario with turns has 'dispatcher' as its first line".to_string();
    assert_eq!(error("scenario a\nturn\n"), (2, message));
    assert_eq!(error("scenario a\ncommit\nasked 0 1 0\n"), (3, "the word of add flags is missing".to_string()));
}

/// A layer that writes into all it is given.
struct Scribe;

impl Layer for Scribe {
    fn bring_up(&mut self, args: &BringUp, buffers: &mut Buffers) -> Outcome {
        buffers.routes[1] = 0xAB;
        buffers.log[0] = 1;
        let endpoint = |address| Endpoint { address, ring: 0x20, owner: 1, active: address == 1 };
        let record = Record {
            usable: true,
            up: true,
            slot: args.slot,
            n: args.n as u8,
            spacing: 32,
            speed: 3,
            config: Some(7),
            control: 0x10,
            list: vec![0x40],
            endpoints: vec![endpoint(0x81), endpoint(1)],
            held: vec![(2, 0), (1, 3)],
            quarantined: vec![0x90, 0x80],
            given: args.rings.clone(),
            ..Record::default()
        };
        Ok((record, Answer { number: 13, code: 9, count: 1 }))
    }
    fn claim(&mut self, record: &Record, args: &Claim, buffers: &mut Buffers) -> Outcome {
        if args.interface != 77 {
            return Ok((record.clone(), Answer::default()));
        }
        buffers.routes[0] = 7;
        buffers.ctx.fill(7);
        buffers.log[0] = 7;
        Ok((Record { slot: record.slot + 1, ..Record::default() }, Answer { number: 13, code: 5, count: 1 }))
    }
    /// The slot of the record, and words and outcomes, so that it shows what is given.
    fn why(&mut self, made: &Made) -> Result<Reason, Cannot> {
        let claim = made.call.claimed().expect("a claim");
        Ok(match claim.alternate {
            0 => Reason::Endpoint { word: made.log[0], owner: made.left.slot },
            1 => Reason::Command { place: made.answer.count, word: made.buffers.outcomes.len() as u32 },
            2 => Reason::Number(made.answer.number),
            3 => Reason::Alternate { interface: claim.interface, alternate: made.record.slot },
            4 => Reason::Rings,
            _ => Reason::Nothing,
        })
    }
    fn ask(&mut self, _: &Record, args: &Claim, _: &Buffers) -> Shown {
        let Claim { interface, alternate } = *args;
        let asked = Asked { interface, alternate, drops: 8, adds: 0x18, rings: vec![0x30, 0x20] };
        Ok(if alternate == 9 {
            (Answer { number: 8, ..Answer::default() }, None)
        } else {
            (Answer::default(), Some(asked))
        })
    }
    fn commit(&mut self, record: &Record, asked: &Asked, buffers: &mut Buffers) -> Outcome {
        buffers.routes[0] = u64::from(asked.drops) << 8 | u64::from(asked.interface);
        Ok((record.clone(), Answer::default()))
    }
    fn release(&mut self, record: &Record, _: u8, _: &mut Buffers) -> Outcome {
        Ok((record.clone(), Answer::default()))
    }
    fn set_configuration(&mut self, record: &Record, _: u8, _: &mut Buffers) -> Outcome {
        Ok((record.clone(), Answer::default()))
    }
    fn hub_update(&mut self, record: &Record, _: &HubUpdate, _: &mut Buffers) -> Outcome {
        Ok((record.clone(), Answer::default()))
    }
    fn disconnect(&mut self, record: &Record, _: &mut Buffers) -> Outcome {
        Ok((record.clone(), Answer::default()))
    }
}

#[test]
fn what_a_call_leaves_is_printed_and_passed_on() {
    let mut session = Session::new();
    let bring_up = one("bringup\nslot 1\nn 1\nrings 144 16 128 160\nctx 0a0b\nloglen 2\nroutes 60=7");
    let left = session.run(&mut Scribe, &bring_up).expect("an answer");
    let mut text = String::new();
    left_text(&mut text, &left);
    let expected = "answer 13 9 1
log 00000001 a5000001
ctx 0a0b
routes 1=ab 60=7
record usable=1 up=1 slot=1 n=1 spacing=32 speed=3 config=7 control=10/active
list 00000040
eps 01:20:1:active 81:20:1:revoked
held 1:3 2:0
quarantined 90 80
given 10 80 90 a0
.
";
    assert_eq!(text, expected);
    let next = session.run(&mut Scribe, &one("claim\nroutes 5=6\nrouteslen 4")).expect("an answer");
    assert_eq!(next.record, left.record);
    assert_eq!((next.table.len(), next.table[5]), (6, 6));
    let (_, _, buffers) = session.prepare(&one("claim\nrouteslen 4"));
    assert_eq!(buffers.routes, [0; 4]);
    let (_, _, buffers) = session.prepare(&one("release"));
    assert_eq!((buffers.routes.len(), buffers.routes[5]), (64, 6));
}

/// What an accepted ask returned is printed, and given to the commits after it that name nothing else.
#[test]
fn what_an_ask_returned_is_printed_and_committed() {
    let mut session = Session::new();
    let mut run = |call: &str| session.run(&mut Scribe, &one(&format!("{call}\nrouteslen 1"))).expect("an answer");
    assert_eq!(run("commit").table[0], 0);
    let printed = |left: &Left| {
        let mut text = String::new();
        left_text(&mut text, left);
        text.lines().filter(|line| line.starts_with("asked")).map(str::to_string).collect::<Vec<_>>()
    };
    assert_eq!(printed(&run("ask\ninterface 5\nalternate 1")), ["asked 5 1 00000008 00000018 30 20"]);
    assert_eq!(printed(&run("ask\ninterface 6\nalternate 9")), ["asked"]);
    let left = run("commit");
    assert_eq!((left.table[0], printed(&left)), (0x805, vec![]));
    assert_eq!(run("commit\nasked 7 0 00000000 00000000").table[0], 7);
    assert_eq!(run("commit").table[0], 0x805);

    let mut text = String::new();
    step_text(&mut text, &one("commit\nasked 5 1 8 18 30 20"));
    assert!(text.starts_with("commit\nasked 5 1 00000008 00000018 30 20\n"), "{text}");
    assert_eq!(one(text.trim_end().trim_end_matches("go")), one("commit\nasked 5 1 8 18 30 20"));
}

/// A why prints the claim's answer and its reason; no later call is lent or given anything of it.
#[test]
fn a_why_prints_a_reason_and_changes_nothing() {
    let mut session = Session::new();
    let up = one("bringup\nslot 1\nn 1\nrings 16\nctx 0a\nloglen 1\nroutes 60=7");
    session.run(&mut Scribe, &up).expect("an answer");
    let before = session.clone();
    let mut why = |keys: &str| {
        let step = one(&format!("why\ninterface 77\nctx 0b\nloglen 1\noutcomes 0005\n{keys}"));
        let left = session.run(&mut Scribe, &step).expect("an answer");
        assert_eq!(format!("{session:?}"), format!("{before:?}"));
        let mut text = String::new();
        left_text(&mut text, &left);
        text
    };
    assert_eq!(why(""), "answer 13 5 1\nreason endpoint 00000007 2\n.\n");
    assert_eq!(why("alternate 1"), "answer 13 5 1\nreason command 1 00000002\n.\n");
    assert_eq!(why("alternate 2\nroutes 3=4\nrouteslen 100"), "answer 13 5 1\nreason number 13\n.\n");
    assert_eq!(why("alternate 3\nrecord usable=1 slot=9"), "answer 13 5 1\nreason alternate 77 9\n.\n");
    assert_eq!(why("alternate 4"), "answer 13 5 1\nreason rings\n.\n");
    assert_eq!(why("alternate 5"), "answer 13 5 1\nreason none\n.\n");

    let mut text = String::new();
    step_text(&mut text, &one("why\ninterface 3\nalternate 255"));
    assert!(text.starts_with("why\ninterface 3\nalternate 255\n"), "{text}");
    assert_eq!(one(text.trim_end().trim_end_matches("go")), one("why\ninterface 3\nalternate 255"));
}

const DISPATCHED: &str = "scenario many
dispatcher
bringup
slot 3
n 8
speed 0
parent 0 0
port 0
rootport 0
rings 4096
header 0 0
config 0
list
hubs
ctx
outcomes
submit
claim
interface 1
alternate 2
ctx 00
outcomes
on 3
submit
turn
turn
end
";

#[test]
fn calls_through_a_dispatcher_are_read_and_printed() {
    let mut contents = parse(DISPATCHED).expect("a scenario");
    assert!(contents.scenarios.is_empty());
    let scenario = contents.dispatched.remove(0);
    let [Line::Submit(first), Line::Submit(second), Line::Turn, Line::Turn] = &scenario.lines[..] else {
        panic!("{scenario:?}");
    };
    assert!((first.home, second.home) == (3, 3) && matches!(first.step.call, Call::BringUp(_)));
    assert_eq!(second.step.call, Call::Claim(Claim { interface: 1, alternate: 2 }));
    let mut text = String::new();
    dispatched_text(&mut text, &scenario);
    assert_eq!(parse(&text).expect("the same").dispatched, [scenario]);
    let without = parse("scenario a\ndispatcher\nrelease\nsubmit\nend\n").expect("a scenario");
    assert!(matches!(&without.dispatched[0].lines[..], [Line::Submit(Submission { home: 0, .. })]));
}

#[test]
fn a_dispatcher_s_lines_stand_in_its_scenarios_only() {
    for (lines, line, message) in [
        ("release\non 3", 3, "this call has no 'on'"),
        ("release\nsubmit", 3, "the call before this line has no 'go'"),
        ("turn", 2, "a scenario with turns has 'dispatcher' as its first line"),
        ("release\ngo\ndispatcher", 4, "a scenario with turns has 'dispatcher' as its first line"),
        ("dispatcher\ndispatcher", 3, "a scenario with turns has 'dispatcher' as its first line"),
        ("dispatcher\nrelease\ngo", 4, "the call before this line has no 'submit'"),
        ("dispatcher\nbringup\non 3", 4, "this call has no 'on'"),
        ("dispatcher\nrelease\non 3\non 3", 5, "'on' is given twice"),
        ("dispatcher\nrelease\non 256", 4, "'256' is not a decimal number, or out of range"),
        ("dispatcher\nrelease\nheld 0:0\nsubmit", 5, "'held' is given without 'record'"),
    ] {
        assert_eq!(error(&format!("scenario a\n{lines}\n")), (line, message.to_string()), "{lines}");
    }
}

/// The slot served is the one whose call waited longest.
#[derive(Default)]
struct Queue(Vec<u8>);

impl Dispatch for Queue {
    fn submit(&mut self, slot: u8) -> u8 {
        self.0.push(slot);
        0
    }

    fn turn(&mut self) -> Option<u8> {
        (!self.0.is_empty()).then(|| self.0.remove(0))
    }
}

/// A home's record is that of its last run call as the next one is submitted; the table is that of the turn.
#[test]
fn homes_hand_their_records_on() {
    let mut desk = Desk::new(Box::new(Queue::default()));
    let up = |slot| Step::new(Call::BringUp(BringUp { slot, n: 3, ..BringUp::default() }));
    let on = |home, step| Submission { home, step };
    let release = Step::new(Call::Release { interface: 0 });
    assert_eq!(desk.submit(&on(3, up(3))), (3, 0));
    // Of slot 0: no bring-up has run.
    assert_eq!(desk.submit(&on(3, release.clone())), (0, 0));
    let Some(Served { slot: 3, home: 3, mut session, step }) = desk.turn() else { panic!("slot 3") };
    let (call, _, mut buffers) = session.prepare(&step);
    assert_eq!(buffers.routes.len(), 128);
    buffers.routes[97] = 5;
    let record = Record { slot: 3, ..Record::default() };
    let called = Called { record: record.clone(), answer: Answer::default(), asked: None, reason: None };
    session.settle(&call, called, buffers);
    desk.ran(3, session);
    assert_eq!((desk.record(3), desk.table()[97]), (record.clone(), 5));
    assert_eq!(desk.submit(&on(3, release)), (3, 0));
    let Some(Served { slot: 0, home: 3, mut session, step }) = desk.turn() else { panic!("slot 0") };
    let (_, given, buffers) = session.prepare(&step);
    assert_eq!((given, buffers.routes[97]), (Record::default(), 5));
    desk.ran(3, session);
    assert_eq!(desk.turn().map(|served| (served.slot, served.step.record)), Some((3, Some(record))));
    assert!(desk.turn().is_none());
}
