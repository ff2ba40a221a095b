use super::assembler::{assemble, disassemble};
use super::audit::audit as audit_trail;
use super::core::{Core, Event, Stepped};
use super::engine::{Engine, Request, Session};
use super::fault::Fault;
use super::instruction::decode;
use super::json::{self, Value};
use super::machine::{run_alone, Action};
use super::reader::read_trail;
use super::trail::{trail_of, write_trail, Trail};
use super::tree::Tree;
use super::verifier::verify;
use super::{checked, defined, order, turns as many, work};
use crate::codes::two_locks;

const WALK: &[u8] = include_bytes!("../../../examples/walk.tlp");
const WALK_TEXT: &str = include_str!("../../../examples/walk.asm");
const BOTH_TEXT: &str = include_str!("../../../examples/both.asm");
const LOOK_TEXT: &str = include_str!("../../../examples/look.asm");
const STORE_TEXT: &str = include_str!("../../../examples/store.asm");
const SWEEP_TEXT: &str = include_str!("../../../examples/sweep.asm");

/// The container of `examples/sweep.asm`.
fn sweep() -> Vec<u8> {
    let cells: [[u8; 8]; 11] = [
        [12, 0, 1, 0, 0, 0, 0, 10],
        [10, 0, 0, 0, 0, 0, 0, 12],
        [16, 2, 0, 0, 0, 0, 0, 0],
        [3, 2, 2, 0, 0, 0, 0, 4],
        [17, 0, 0, 2, 0, 0, 0, 0],
        [13, 1, 0, 1, 0, 0, 0, 9],
        [15, 0, 0, 0, 0, 0, 0, 0],
        [14, 0, 1, 0, 0, 0, 0, 0],
        [11, 0, 0, 0, 0, 0, 0, 0],
        [15, 0, 0, 0, 0, 0, 0, 0],
        [20, 0, 0, 0, 0, 0, 0, 0],
    ];
    let mut bytes = b"TLP1\x01\x00\x00\x0b".to_vec();
    bytes.extend(cells.as_flattened());
    bytes
}

#[test]
fn texts_and_containers_are_of_the_same_codes() {
    for (bytes, text) in [(WALK.to_vec(), WALK_TEXT), (sweep(), SWEEP_TEXT)] {
        let code = decode(&bytes).unwrap();
        assert_eq!(assemble(text), Ok(code.clone()));
        assert_eq!(assemble(&disassemble(&code)), Ok(code));
    }
}

#[test]
fn wrong_texts_are_refused() {
    let long = format!("arity 0\n{}", "ret\n".repeat(1_025));
    let cases = [
        ("", Fault::at(251, 1)),
        ("arity 9\nret", Fault::at(251, 1)),
        ("arity 0\nset v01 1", Fault::at(251, 2)),
        ("arity 0\nset v0 -0\nL:\nL:", Fault::at(251, 2)),
        ("arity 0\nL:\nL:\nret 1", Fault::at(253, 3)),
        ("arity 0\n\njmp L ; L:\nret", Fault::at(252, 3)),
        ("arity 0\nrepv v0 1\nend\nret", Fault::at(251, 2)),
        ("arity 0\nget v0 n0 4\nret", Fault::at(251, 2)),
        ("version 3\narity 0\nret", Fault::at(251, 1)),
        ("version 2\nversion 2\narity 0\nret", Fault::at(251, 2)),
        ("arity 0\nversion 2\nret", Fault::at(251, 2)),
        ("version 2", Fault::at(251, 1)),
        (&long, Fault::plain(254)),
    ];
    for (text, fault) in cases {
        assert_eq!(assemble(text), Err(fault), "{text}");
    }
}

#[test]
fn the_verifier_finds_the_first_fault() {
    let cases = [
        ("rep 2\nfirst n0 v0 else L\nrel n0\nL:\nend\nret", Fault::at(409, 3)),
        ("end\nrep 0", Fault::at(302, 0)),
        ("rep 1\nrep 1\nret", Fault::at(301, 0)),
        ("rep 1\nrep 1\nrep 1\nrep 1\nrep 1\nend\nend\nend\nend\nend\nret", Fault::at(303, 4)),
        ("L:\njmp L", Fault::at(401, 0)),
        ("jmp L\nrep 1\nL:\nend\nret", Fault::at(402, 0)),
        ("jmp L\nL:", Fault::at(403, 0)),
        ("set v0 1", Fault::at(403, 0)),
        ("first n0 v0 else L\nL:\nret", Fault::at(408, 1)),
        ("first n0 v0 else L\nrel n0\nL:\nfirst n0 v0 else M\nrel n0\nM:\nret", Fault::at(404, 2)),
        ("rel n3", Fault::register(405, 0, 3)),
        ("first n0 v0 else L\nmove n0 n0\nL:\nret", Fault::register(406, 1, 0)),
        ("first n5 v0 else L\nret\nL:\nret", Fault::register(407, 1, 5)),
        ("rep 65535\nrep 65535\nrep 65535\nrep 65535\nend\nend\nend\nend\nret", Fault::plain(305)),
        ("rep 33\nemit v0\nend\nret", Fault::plain(307)),
    ];
    for (text, fault) in cases {
        let code = assemble(&format!("arity 0\n{text}")).unwrap();
        assert_eq!(verify(code), Err(fault), "{text}");
    }
    let bounds = verify(assemble(WALK_TEXT).unwrap()).unwrap().bounds;
    assert_eq!((bounds.steps, bounds.locks, bounds.emits), (54, 13, 1));
}

#[test]
fn a_call_runs_alone() {
    let procedure = verify(decode(WALK).unwrap()).unwrap();
    let mut tree = Tree::new(vec![0, 0, 1], vec![[0; 8], [0; 8], [7, 0, 0, 0, 0, 0, 0, 0]]).unwrap();
    for (start, reply, steps) in [(0, vec![7], 15), (2, vec![7], 7), (3, vec![], 2), (-1, vec![], 2)] {
        let (answer, done) = run_alone(&procedure, &[start], &mut tree).unwrap();
        assert_eq!((answer.values(), done), (&reply[..], steps));
    }
    assert_eq!(run_alone(&procedure, &[], &mut tree), None);
}

/// The core of `examples/turns.json`, after its moves.
#[test]
fn a_register_says_the_turns() {
    let text = "version 2\narity 1\nrepv v0 10\nemit v0\nend\nret\n";
    let code = assemble(text).unwrap();
    assert_eq!(disassemble(&code), text);
    let container = [&b"TLP2"[..], &[1, 0, 0, 4], &[21, 0, 0, 0, 0, 0, 0, 10], &[19, 0, 0, 0, 0, 0, 0, 0], &[11, 0, 0, 0, 0, 0, 0, 0], &[20, 0, 0, 0, 0, 0, 0, 0]].concat();
    assert_eq!(decode(&container), Ok(code.clone()));
    let first = [&b"TLP1"[..], &container[4..]].concat();
    assert_eq!(decode(&first), Err(Fault::at(203, 0)));
    let procedure = verify(code).unwrap();
    assert_eq!((procedure.bounds.steps, procedure.bounds.locks, procedure.bounds.emits), (22, 0, 10));
    let mut tree = Tree::new(vec![0], vec![[0; 8]]).unwrap();
    for (turns, reply, steps) in [(3, vec![3; 3], 8), (-5, vec![], 2), (99, vec![99; 10], 22)] {
        let (answer, done) = run_alone(&procedure, &[turns], &mut tree).unwrap();
        assert_eq!((answer.values(), done), (&reply[..], steps));
    }
    let at_the_end = assemble("version 2\narity 0\nrepv v0 1\nset v1 1\nend").unwrap();
    assert_eq!(verify(at_the_end), Err(Fault::at(403, 0)));
}

fn turns() -> Core {
    let mut core = Core::new(Tree::new(vec![0; 3], vec![[0; 8], [10, 0, 0, 0, 0, 0, 0, 0], [20, 0, 0, 0, 0, 0, 0, 0]]).unwrap());
    for (name, text) in [("both", BOTH_TEXT), ("look", LOOK_TEXT), ("store", STORE_TEXT)] {
        core.add_procedure(name, verify(assemble(text).unwrap()).unwrap()).unwrap();
    }
    for (name, args, call, steps) in
        [("both", vec![11], 0, 4), ("look", vec![1], 1, 5), ("store", vec![2, 22], 2, 4), ("", vec![], 0, 7)]
    {
        if !name.is_empty() {
            assert_eq!(core.admit(name, &args), Ok(call));
        }
        for _ in 0..steps {
            assert!(matches!(core.step(call), Ok(Stepped::Moved(_))));
        }
    }
    core
}

#[test]
fn calls_take_turns() {
    let mut core = turns();
    assert_eq!(core.step(0), Ok(Stepped::Over));
    assert_eq!(core.step(3), Err(Fault::plain(602)));
    assert_eq!(core.records(), [[0; 8], [11, 0, 0, 0, 0, 0, 0, 0], [22, 0, 0, 0, 0, 0, 0, 0]]);
    assert_eq!(core.admit("both", &[1]), Ok(3));
    assert_eq!(core.admit("look", &[0]), Ok(4));
    assert_eq!(core.step(3), Ok(Stepped::Moved(Action::Lock { node: 0, record: [0; 8] })));
    assert_eq!(core.step(4), Ok(Stepped::Blocked { node: 0, holder: 3 }));
}

#[test]
fn a_clean_trail_gives_its_order() {
    let trail = trail_of(&turns());
    assert_eq!(audit_trail(&trail), Ok(vec![2, 0, 1]));
    assert_eq!(read_trail(&write_trail(&trail)), Ok(trail));
}

#[test]
fn a_trail_is_written_byte_for_byte() {
    let calls = r#"["both",[11],[22]],["look",[1],[11]],["store",[2,22],[]]"#;
    let ends = "[0,0,0,0,0,0,0,0],[11,0,0,0,0,0,0,0],[22,0,0,0,0,0,0,0]";
    let events = [
        r#"["a",0],["l",0,0,[0,0,0,0,0,0,0,0]],["l",0,1,[10,0,0,0,0,0,0,0]],["f",0,1,[11,0,0,0,0,0,0,0]]"#,
        r#"["a",1],["l",1,1,[11,0,0,0,0,0,0,0]],["f",1,1,[11,0,0,0,0,0,0,0]],["d",1]"#,
        r#"["a",2],["l",2,2,[20,0,0,0,0,0,0,0]],["f",2,2,[22,0,0,0,0,0,0,0]],["d",2]"#,
        r#"["l",0,2,[22,0,0,0,0,0,0,0]],["f",0,2,[22,0,0,0,0,0,0,0]],["f",0,0,[0,0,0,0,0,0,0,0]],["d",0]"#,
    ];
    let procedures = [("both", BOTH_TEXT), ("look", LOOK_TEXT), ("store", STORE_TEXT)].map(|(name, text)| {
        let canonical = disassemble(&assemble(text).unwrap());
        format!("[\"{name}\",\"{}\"]", canonical.replace('\n', "\\n"))
    });
    let tree = r#"{"parents":[0,0,0],"records":[[0,0,0,0,0,0,0,0],[10,0,0,0,0,0,0,0],[20,0,0,0,0,0,0,0]]}"#;
    let (events, procedures) = (events.join(","), procedures.join(","));
    let expected = format!(
        "{{\"calls\":[{calls}],\"end\":[{ends}],\"events\":[{events}],\"procs\":[{procedures}],\"tree\":{tree}}}"
    );
    assert_eq!(write_trail(&trail_of(&turns())), expected);
}

#[test]
fn an_altered_trail_is_refused() {
    let cases: [(fn(&mut Trail), Fault); 8] = [
        (|trail| trail.events[0] = Event::Done { call: 0 }, Fault::at(711, 0)),
        (|trail| trail.events.insert(2, Event::Lock { call: 0, node: 0, record: [0; 8] }), Fault::at(711, 2)),
        (|trail| trail.events[5] = Event::Lock { call: 1, node: 0, record: [0; 8] }, Fault::at(712, 5)),
        (|trail| trail.events[5] = Event::Lock { call: 1, node: 1, record: [0; 8] }, Fault::at(713, 5)),
        (|trail| trail.events.truncate(15), Fault::at(715, 0)),
        (|trail| trail.calls[2].args[1] = 21, Fault::at(714, 2)),
        (|trail| trail.calls[1].reply = None, Fault::at(717, 1)),
        (|trail| trail.ends[1][3] = 1, Fault::at(716, 1)),
    ];
    for (alter, fault) in cases {
        let mut trail = trail_of(&turns());
        alter(&mut trail);
        assert_eq!(audit_trail(&trail), Err(fault));
    }
}

/// As it is written, with space between, with members in another order or twice, and with an escape in each place for one.
#[test]
fn a_trail_of_another_form_is_the_same() {
    let trail = trail_of(&turns());
    let text = write_trail(&trail);
    let (calls, rest) = text[1..].split_once(",\"end\"").unwrap();
    let others = [
        text.replace("],", "] ,\n").replace("\":", "\"\t: "),
        format!("{{\"end\"{},{calls}}}", rest.strip_suffix('}').unwrap()),
        format!("{{{calls},{}", &text[1..]),
        text.replace("\"events\"", "\"\\u0065vents\""),
        text.replace("\"l\"", "\"\\u006c\""),
        text.replace("\"both\"", "\"\\u0062oth\""),
        text.replace(",0,0,0,0]", "]"),
        text.replace(",0,0,0,0]", "]").replace("\"events\"", "\"\\u0065vents\""),
    ];
    for other in others {
        assert_eq!(read_trail(&other).as_ref(), Ok(&trail), "{other}");
    }
    for (place, _) in text.char_indices() {
        assert_eq!(read_trail(&text[..place]), Err(()));
    }
    assert_eq!(read_trail(&text.replacen(",0,0,0,0]", "]", 1)), Err(()));
    for wrong in ["-0", "01", "1.0", "1e0", "4294967296", "null"] {
        assert_eq!(read_trail(&text.replacen("[\"a\",0]", &format!("[\"a\",{wrong}]"), 1)), Err(()), "{wrong}");
    }
}

#[test]
fn integers_are_those_of_values() {
    let least = i64::MIN.to_string();
    for text in ["0", "-1", " 12", "9223372036854775807", &least, "9223372036854775808", "-9223372036854775809", "-0", "00", "-", "", "1.5", "1e2"] {
        let of_value = json::parse(text).and_then(|value| value.as_integer());
        assert_eq!(json::Parser::new(text).integer(), of_value, "{text}");
    }
}

#[test]
fn json_is_read() {
    let integers = |numbers: &[i64]| Value::Array(numbers.iter().map(|&number| Value::Integer(number)).collect());
    let cases = [
        (" [1 , -2,9223372036854775807] ", Some(integers(&[1, -2, i64::MAX]))),
        ("-0", Some(Value::Float(-0.0))),
        ("9223372036854775808", Some(Value::Float(9223372036854775808.0))),
        (r#""a\n\u00e9\ud83d\ude00é""#, Some(Value::String("a\né😀é".to_string()))),
        (
            r#"{"a":null,"b":true}"#,
            Some(Value::Object(vec![("a".into(), Value::Null), ("b".into(), Value::Bool(true))])),
        ),
    ];
    for (text, value) in cases {
        assert_eq!(json::parse(text), value, "{text}");
    }
    for text in ["", "01", "1.", "1e", "1e999", "-", "[1,]", "[1", "{\"a\"}", "\"\n\"", r#""\ud83d""#, "1 2", "nul"] {
        assert_eq!(json::parse(text), None, "{text}");
    }
    assert!(json::parse(&("[".repeat(127) + &"]".repeat(127))).is_some());
    assert!(json::parse(&("[".repeat(128) + &"]".repeat(128))).is_none());
}

/// A tree of four levels, each node with four children.
fn parents() -> Vec<u32> {
    (0..85u32).map(|node| node.saturating_sub(1) / 4).collect()
}

#[test]
fn the_workloads_fit_together() {
    let code = sweep();
    let args: Vec<i64> = (0..100).collect();
    let (mut nanos, mut steps) = ([0; 2], [0; 2]);
    let done = many::interleave(&code, &parents(), &args, &mut nanos, &mut steps);
    // Each call is admitted and done, and locks and frees four nodes.
    assert_eq!(done.count, 100 * 10);
    // A call alone does 27 steps and is then over.
    assert!(steps[0] > 64 * 28 && steps[1] > 36 * 28);
    let admitted = many::admit(&code, &parents(), &args);
    assert_eq!((admitted.count, admitted.sum), (100, done.sum));

    let text = many::tell(&code, &parents(), &args).unwrap();
    let trail = read_trail(&text).unwrap();
    assert_eq!(write_trail(&trail), text);
    assert_eq!(work::read(text.as_bytes(), 1).count, done.count);
    assert_eq!(work::audit(&trail, 2).count, done.count);
    assert_eq!(work::order(&trail, 2).count, 100);
    assert_eq!(work::write(&trail, 1).count, text.len() as u64);
    assert_eq!(many::keep(&code, &parents(), &args).count, done.count);
    let kept = order::order_of(&trail.events, 100, &trail.tree.shape);
    assert_eq!(kept, defined::order_of(&trail.events, &trail.tree.shape));
    assert!(work::order(&trail, 2).is_like(&work::trusting_order(&trail, 2)));
}

/// The order of any history is the one by its definition, whatever event is left out, told twice or told of another call.
#[test]
fn any_history_has_its_order() {
    let trail = trail_of(&turns());
    let shape = &trail.tree.shape;
    for place in 0..trail.events.len() {
        let mut left_out = trail.events.clone();
        let event = left_out.remove(place);
        let mut told_twice = trail.events.clone();
        told_twice.insert(place, event);
        let mut of_another = trail.events.clone();
        of_another[place] = match event {
            Event::Admit { call } => Event::Admit { call: 2 - call },
            Event::Lock { call, node, record } => Event::Lock { call: 2 - call, node, record },
            Event::Free { call, node, record } => Event::Free { call: 2 - call, node, record },
            Event::Done { call } => Event::Done { call: 2 - call },
        };
        for events in [left_out, told_twice, of_another] {
            assert_eq!(checked::order_of(&events, 3, shape), defined::order_of(&events, shape), "{place}");
        }
    }
}

/// The same of all events but the last shows in the sums.
#[test]
fn a_sum_depends_on_each_part_of_a_trail() {
    let read = |text: &str| work::read(text.as_bytes(), 1).sum;
    let text = write_trail(&trail_of(&turns()));
    let parts = [
        ("[\"f\",0,1,[11,0,0,0,0,0,0,0]]", "[\"f\",0,1,[11,0,0,1,0,0,0,0]]"),
        ("[\"f\",0,1,[11,0,0,0,0,0,0,0]]", "[\"l\",0,1,[11,0,0,0,0,0,0,0]]"),
        ("[\"look\",[1],[11]]", "[\"look\",[1],[12]]"),
        ("[\"look\",[1],[11]]", "[\"look\",[0],[11]]"),
        ("[\"look\",[1],[11]]", "[\"look\",[1],null]"),
        ("\"end\":[[0,", "\"end\":[[1,"),
        ("\"records\":[[0,", "\"records\":[[1,"),
        ("\"parents\":[0,0,0]", "\"parents\":[0,0,1]"),
        ("[\"look\",\"arity", "[\"lo_k\",\"arity"),
    ];
    for (old, new) in parts {
        let altered = text.replace(old, new).replace("[\"look\",[1]", if old.contains("arity") { "[\"lo_k\",[1]" } else { "[\"look\",[1]" });
        assert_ne!(altered, text, "{old}");
        assert_ne!(read(&altered), read(&text), "{old}");
    }
}

#[test]
fn single_workloads() {
    let walked = work::run(WALK, 100, &[0], 3);
    // Twelve turns, and the reply is the number of the node that was come to.
    assert_eq!((walked.count, walked.sum), (3 * 54, work::run(WALK, 100, &[0], 3).sum));
    assert_eq!(work::check(WALK, 3).count, 3);
    assert_eq!(work::run(WALK, 0, &[0], 1).count, u64::MAX);
    assert_eq!(work::decode(WALK, 2).sum, work::assemble(WALK_TEXT, 2).sum);
    // The first lock is the first instruction.
    assert_eq!(work::local(WALK, &[0], 2).count, 0);
    assert_eq!(many::interleave(WALK, &[1], &[0], &mut [], &mut []).count, u64::MAX);
    assert_eq!(many::interleave(WALK, &[0], &[0; 65], &mut [], &mut []).count, 4 * 65);
    assert_eq!(many::block(WALK, 7).count, 7);
}

#[test]
fn calls_run_again_leave_what_they_left() {
    let args = [0, 1, 2, 3, 0, 5, 1];
    let (again, kept) = (many::replay(&sweep(), &parents(), &args), many::keep(&sweep(), &parents(), &args));
    assert_eq!((again.count, kept.count), (7, 7 * 10));
}

#[test]
fn calls_on_threads_leave_what_they_leave_alone() {
    let parents = [0, 0, 1];
    let alone = many::engines(&sweep(), &parents, &[1; 512], 1, 2);
    assert_eq!(alone.count, 1_024);
    for workers in 2..=16 {
        let measured = many::engines(&sweep(), &parents, &[1; 512], workers, 2);
        assert_eq!((measured.count, measured.sum), (alone.count, alone.sum));
    }
}

/// Calls in each other's way, with few instructions between two locks and with many.
#[test]
fn what_an_engine_leaves_is_clean() {
    for turns in [4, 400] {
        for workers in [1, 2, 4] {
            let engine = Engine::new(Tree::new(vec![0, 0, 1], vec![[0; 8]; 3]).unwrap());
            engine.register("two", verify(decode(&two_locks(turns)).unwrap()).unwrap()).unwrap();
            let mut session = Session::default();
            engine.with_workers(workers, || {
                for _ in 0..2 {
                    let requests = (0..100).map(|_| Request { name: "two".to_string(), args: vec![1] }).collect();
                    engine.batch(&mut session, requests, workers).unwrap();
                }
            });
            let running = engine.close(&session).unwrap();
            assert_eq!(running.core().records()[2], [200, 0, 0, 0, 0, 0, 0, 0]);
            assert_eq!(audit_trail(&trail_of(running.core())).as_deref(), Ok(running.order()), "{turns} {workers}");
        }
    }
}
