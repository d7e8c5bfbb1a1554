//! Carrying forward: zeros after each refusal, what each line changes, logs of other formulas, and a large valley.

mod common;

use common::formulas::any_kind;
use common::solvers::{cadical, Answer};
use common::{carrying_work, count, over_seeds, run_model, sum, way_of, Carrying, Numbers, WAYS};
use model::generator::{answer_after, text_of, Random};
use model::texts::log_text;
use model::valleys::Valley;
use sirgholyn::calls::{library, on_large_stack};
use sirgholyn::{plan, reencode, ReencodeRoom, WalkBackRoom};

// ---- refusals

/// A call's texts, and the sizes of its workspace and of its line.
#[derive(Clone, Copy)]
struct Given<'a> {
    formula: &'a str,
    log: &'a str,
    kept: usize,
    plan: &'a str,
    work: usize,
    room: usize,
}

/// What is accepted: over both lines 3 becomes true, and the formula's clause is deleted.
const ACCEPTED: Given = Given {
    formula: "p cnf 2 1\n1 2 0\n",
    log: "3 -1 0\nd 1 2 0\n",
    kept: 2,
    plan: "s SATISFIABLE\nv 1 0\n",
    work: 4 * (3 + 6) + 4 * 3 + 64,
    room: 20,
};

/// The number, and what line and tally hold then; both are filled before.
fn carry(given: Given) -> (u32, Vec<u8>, [u64; 3]) {
    let (formula, log, plan) = (given.formula, given.log, given.plan);
    let mut work = vec![-7; given.work];
    let (mut line, mut tally) = (vec![0xA5; given.room], [77; 3]);
    let (w, l, t) = (&mut work, &mut line, &mut tally);
    // SAFETY: each pointer and length are those of one slice.
    let number = on_large_stack(move || unsafe {
        library::sirgholyn_carry_forward(
            formula.as_ptr(),
            formula.len(),
            log.as_ptr(),
            log.len(),
            given.kept,
            plan.as_ptr(),
            plan.len(),
            w.as_mut_ptr(),
            w.len(),
            l.as_mut_ptr(),
            l.len(),
            t.as_mut_ptr(),
            t.len(),
        )
    });
    (number.unwrap(), line, tally)
}

#[test]
fn what_lies_past_the_line_is_unchanged() {
    let (number, line, tally) = carry(ACCEPTED);
    assert_eq!((number, tally), (0, [11, 77, 77]));
    assert_eq!(&line[..11], b"v 1 -2 3 0\n");
    assert!(line[11..].iter().all(|&byte| byte == 0xA5));
}

/// What is accepted, with a change.
fn changed<'a>(change: impl FnOnce(&mut Given<'a>)) -> Given<'a> {
    let mut given = ACCEPTED;
    change(&mut given);
    given
}

/// A row for each number, in the order in which they are looked for.
#[test]
fn zeros_after_each_refusal() {
    let clause = (1..=8_000).map(|v| format!("{v} ")).collect::<String>() + "0\n";
    let too_many_literals = format!("p cnf 8000 8\n{}", clause.repeat(8));
    let rows = [
        (1, changed(|given| given.formula = "")),
        (2, changed(|given| given.formula = "p cnf 8001 1\n1 2 0\n")),
        (3, changed(|given| given.formula = "p cnf 2 1\n1 x 0\n")),
        (4, changed(|given| given.formula = "p cnf 2 1\n1 3 0\n")),
        (7, changed(|given| given.formula = "p cnf 2 1\n1 2")),
        (8, changed(|given| given.formula = "p cnf 2 2\n1 2 0\n")),
        (9, changed(|given| given.formula = &too_many_literals)),
        (31, changed(|given| given.log = "3 -1 0\nd 1 2\n")),
        (34, changed(|given| given.kept = 3)),
        (41, changed(|given| given.plan = "s SATISFIABLE\nv 1\n")),
        (42, changed(|given| given.plan = "s SATISFIABLE\nv 1 3 0\n")),
        (43, changed(|given| given.plan = "s SATISFIABLE\nv 1 1 0\n")),
        (11, changed(|given| given.work -= 1)),
        (45, changed(|given| given.plan = "s SATISFIABLE\nv 0\n")),
        (32, changed(|given| given.log = "3 -1 0\nd 1 -2 0\n")),
        (46, changed(|given| given.log = "-1 0\nd -1 0\n")),
        (14, changed(|given| given.room = 10)),
    ];
    for (number, given) in rows {
        let (found, line, tally) = carry(given);
        assert_eq!(found, number);
        assert_eq!(line, vec![0; given.room], "{number}");
        assert_eq!(tally, [0; 3], "{number}");
    }
}

// ---- lines

/// What each kind of line changes, from a plan with 1 and 2 true.
#[test]
fn lines() {
    let (formula, plan) = (b"p cnf 3 1\n1 2 0\n", b"s SATISFIABLE\nv 1 2 0\n");
    for (log, expected) in [
        ("", Ok("v 1 2 -3 0\n")),
        // the first literal of an added clause that is false becomes true
        ("4 -1 0\n", Ok("v 1 2 -3 4 0\n")),
        ("-1 4 0\n", Ok("v -1 2 -3 -4 0\n")),
        ("5 3 0\n4 -5 0\n", Ok("v 1 2 -3 4 5 0\n")),
        // of one that is true, none
        ("3 1 0\n", Ok("v 1 2 -3 0\n")),
        ("3 -4 0\n", Ok("v 1 2 -3 -4 0\n")),
        // a deletion changes nothing, even of a clause that is false
        ("d 2 1 0\n", Ok("v 1 2 -3 0\n")),
        ("4 0\n-4 0\nd 4 0\n", Ok("v 1 2 -3 -4 0\n")),
        // nor does a line without literals, whose clause no values satisfy
        ("0\nd 0\n", Ok("v 1 2 -3 0\n")),
        ("0\n", Err(46)),
        // what is tested is what stands in the end
        ("4 0\n-4 0\n", Err(46)),
        ("-1 0\n-2 0\n", Err(46)),
        ("-1 0\n-2 0\nd 1 2 0\n", Ok("v -1 -2 -3 0\n")),
    ] {
        let kept = log.lines().count();
        let line = Carrying::Forward.line(formula, log.as_bytes(), kept, plan, 1_000, 100);
        let expected = expected.map(|line| line.as_bytes().to_vec());
        assert_eq!(line, expected, "{log:?}");
    }
}

// ---- logs of other formulas

/// The plan of one formula over the log of another, to every cut: library and model agree, and 46 is among the numbers.
#[test]
fn logs_of_other_formulas() {
    let counted = over_seeds(0..400, |seed, numbers: &mut Numbers| {
        let random = &mut Random::new(seed);
        let [formula, other] = [(); 2].map(|()| any_kind(random));
        if formula.variables > 30 || other.variables > 30 {
            return;
        }
        let lines = run_model(&other, way_of(seed)).log;
        let (text, log) = (text_of(&formula), log_text(&lines));
        let plan = answer_after(random, &formula, &[]);
        for kept in 0..=lines.len() {
            let work = carrying_work(&formula, &log, kept);
            let number = Carrying::Forward.compare(&text, &log, kept, &plan, work, 50_000);
            count(numbers, number);
            if [32, 45].contains(&number) {
                break;
            }
        }
    });
    let numbers = sum(counted);
    println!("{numbers:?}");
    assert_eq!(numbers.keys().copied().collect::<Vec<_>>(), [0, 32, 45, 46]);
    for (number, least) in [(0, 500), (32, 50), (46, 100)] {
        assert!(numbers[&number] > least, "{number}");
    }
}

// ---- a large valley

/// A solver's plan for 600 traps, as it walks back, carried forward to what satisfies the new formula, and back to the
/// same plan.
#[test]
fn a_valley_of_600_traps() {
    let valley = Valley::random(&mut Random::new(1), 600, 12, 1_560);
    let text = text_of(&valley.formula());
    for way in WAYS {
        let new = reencode(&text, way, ReencodeRoom::default()).unwrap();
        let carry = |carrying: Carrying, given: &[u8]| {
            let (lines, room) = (new.tally.lines as usize, WalkBackRoom::default());
            let line = carrying.call(&text, &new.log, lines, given, room).unwrap();
            String::from_utf8(line).unwrap()
        };
        let with_status = |line: &str| format!("s SATISFIABLE\n{line}").into_bytes();

        let Answer::Satisfiable(answer) = cadical(&new.formula) else {
            panic!("there is a plan");
        };
        let plan = carry(Carrying::Back, &answer);
        assert!(plan::satisfies(&String::from_utf8_lossy(&text), &plan));
        let line = carry(Carrying::Forward, &with_status(&plan));
        let formula = String::from_utf8_lossy(&new.formula);
        assert!(plan::satisfies(&formula, &line), "{way:?}");
        let back = carry(Carrying::Back, &with_status(&line));
        assert!(back == plan, "{way:?}");
    }
}
