//! "Trials at the edges", all of them.

mod common;

use common::{compiled, keep, rows, states};
use yardstick::file::{open, stream, Controller};
use yardstick::listing::listing;
use yardstick::refusal::Refusal;
use yardstick::{compile, work_needed, Lent};

const BLINK: &str = "program blink; input GO; output LAMP; loop if GO then invert(LAMP) endif endloop endprog";

fn with(declarations: &str, list: &str) -> String {
    rows(&format!("program p; {declarations} {list} endprog"))
}

fn with_room(list: &str, room: u64) -> Result<usize, Refusal> {
    let source = format!("program p; {list} endprog");
    keep(&source);
    let lent = Lent { room, work: work_needed(room), ..Lent::AMPLE };
    compile(source.as_bytes(), lent).map(|compiled| compiled.states())
}

#[test]
fn blink_complete() {
    let blink = compiled(BLINK).unwrap();
    let expected = "machine blink\ninputs GO\noutputs LAMP\nstates 2\n0 0 0 1\n1 1 1 0\n";
    assert_eq!(listing(&blink.program, &blink.table), expected);
    assert_eq!(stream(&blink.table), [1, 1, 2, 0, 0, 0, 0, 0, 1, 0, 1, 0, 1, 0, 0, 0]);
    assert_eq!(blink.blocks(), 1);
}

#[test]
fn numbers() {
    assert_eq!(with("output A; integer Y[2] = 7;", "if Y == 3 then raise(A) endif"), "0 0 1; 1 1 1");
    assert_eq!(with("output A; integer x[3] = 3;", "x := x - 5; if x == 6 then raise(A) endif"), "0 0 1; 1 0 2; 2 1 2");
    for truth in ["(0 - 7) / 2 == 0 - 3", "(0 - 7) % 2 == 0 - 1", "7 / 0 == 0", "7 % 0 == 7"] {
        assert_eq!(with("output A;", &format!("if {truth} then raise(A) endif")), "0 0 1; 1 1 1", "{truth}");
    }
    assert_eq!(states("program p; integer x[16]; x := x * 32768 endprog"), "2 states");
    assert_eq!(states("program p; integer x[16]; x := x * 32769 endprog"), "refused 10 at 33");
}

#[test]
fn branches() {
    assert_eq!(with("output L;", "parallel raise(L) || lower(L) endparallel"), "0 0 1; 1 0 1");
    let inner = "parallel parallel raise(A) || lower(A) endparallel || raise(A) endparallel";
    assert_eq!(with("output A;", inner), "0 0 1; 1 1 1");
    let jumps = |first: &str, second: &str| {
        with(
            "output E, B;",
            &format!("loop parallel {first} || {second} endparallel; raise(B); exit endloop; raise(E)"),
        )
    };
    assert_eq!(jumps("exit", "break"), "0 0 0 1; 1 1 0 1");
    assert_eq!(jumps("break", "exit"), "0 0 0 1; 1 0 1 2; 2 1 1 2");
}

#[test]
fn states_and_room() {
    assert_eq!(with_room("skip; skip", 3), Ok(3));
    assert_eq!(with_room("skip; skip", 2), Err(Refusal::at(11, 0)));
    assert_eq!(with_room("loop skip endloop", 1), Ok(1));
    assert_eq!(with_room("delay 3", 256), Ok(4));
    assert_eq!(with_room("delay 0", 256), Ok(2));
    assert_eq!(with_room("skip", 0), Err(Refusal::at(1, 0)));
    assert_eq!(with_room("skip", 257), Err(Refusal::at(1, 0)));
}

#[test]
fn lengths() {
    assert_eq!(states(&" ".repeat(8_193)), "refused 3 at 0");
    let file = compiled(BLINK).unwrap().file;
    let mut blink = open(&file).unwrap();
    blink.step(&file, 1).unwrap();
    assert_eq!(blink, Controller { state: 1, outputs: 1 });
    assert_eq!(blink.step(&file, 2), Err(Refusal::at(14, 0)));
    assert_eq!(blink, Controller { state: 1, outputs: 1 });
    assert_eq!(open(&file[..511]), Err(Refusal::at(21, 0)));
    assert_eq!(blink.step(&file[..511], 0), Err(Refusal::at(21, 0)));
}
