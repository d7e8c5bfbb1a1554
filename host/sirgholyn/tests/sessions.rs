//! The sessions listed in document 01, word for word, as its changes have them.

mod common;

use common::{compare_reencode, run_model, Carrying, Room, WAYS};
use model::reading::{read_formula, INPUT_LIMITS};
use model::sessions::{CHAIN, COPIES, F, SIX};
use sirgholyn::{
    read_back, reencode, Arrangement, ChoiceRecord, Error, Form, ReencodeRoom, Reencoded, Refusal,
    Settings, WalkBackRoom,
};

const G: &str =
    "p cnf 10 8\n8 -7 0\n9 -8 0\n10 -9 0\n-7 6 0\n7 -8 6 0\n8 -9 6 0\n9 -10 -6 0\n10 -6 0\n";

fn encode(text: &str, form: Form, arrangement: Arrangement) -> Reencoded {
    let settings = Settings::new(form, arrangement);
    reencode(text.as_bytes(), settings, ReencodeRoom::default()).unwrap()
}

fn expect(text: &str, log: &str, formula: &str) {
    for form in [Form::Counter, Form::Order] {
        let new = encode(text, form, Arrangement::AsListed);
        assert_eq!(String::from_utf8_lossy(&new.log), log);
        assert_eq!(String::from_utf8_lossy(&new.formula), formula);
        assert_eq!(new.tally.lines, log.lines().count() as u64);
    }
}

fn carry(
    carrying: Carrying,
    formula: &str,
    log: &[u8],
    kept: usize,
    assignment: &str,
) -> Result<String, Error> {
    let room = WalkBackRoom::default();
    let line = carrying.call(formula.as_bytes(), log, kept, assignment.as_bytes(), room);
    line.map(|line| String::from_utf8(line).unwrap())
}

fn walk(formula: &str, log: &[u8], kept: usize, answer: &str) -> Result<String, Error> {
    carry(Carrying::Back, formula, log, kept, answer)
}

/// A plan with these literals true, carried forward over the whole log.
fn forward(formula: &str, log: &[u8], named: &str) -> Result<String, Error> {
    let lines = log.split_inclusive(|&byte| byte == b'\n').count();
    let plan = format!("s SATISFIABLE\nv {named} 0\n");
    carry(Carrying::Forward, formula, log, lines, &plan)
}

#[test]
fn a() {
    expect("p cnf 0 0", "", "p cnf 0 0\n");
}

#[test]
fn b() {
    expect("p cnf 0 1\n0\n", "", "p cnf 0 1\n0\n");
}

#[test]
fn c() {
    expect(
        "p cnf 1 2\n1 0\n-1 0\n",
        "0\nd 1 0\nd -1 0\n",
        "p cnf 1 1\n0\n",
    );
}

#[test]
fn d() {
    expect(
        "p cnf 2 2\n1 2 0\n-1 -2 0\n",
        "d 1 2 0\nd -1 -2 0\n",
        "p cnf 2 0\n",
    );
}

#[test]
fn e() {
    let text = "p cnf 3 2\n1 2 0\n-1 3 0\n";
    let log = "2 3 0\nd 1 2 0\nd -1 3 0\nd 2 3 0\n";
    expect(text, log, "p cnf 3 0\n");
    let line = walk(text, log.as_bytes(), 4, "s SATISFIABLE\nv -1 -2 -3 0\n");
    assert_eq!(line.as_deref(), Ok("v -1 2 -3 0\n"));
}

#[test]
fn f() {
    let tally = encode(F, Form::Counter, Arrangement::AsListed).tally;
    assert_eq!((tally.highest, tally.clauses, tally.lines), (10, 21, 18));
}

#[test]
fn g_and_h() {
    let new = encode(F, Form::Order, Arrangement::AsListed);
    assert_eq!(new.tally.lines, 41);
    assert_eq!(String::from_utf8_lossy(&new.formula), G);
    let back = read_back(&new.formula, None).unwrap();
    assert_eq!(back.counts.variables, 10);
    let clauses: Vec<&[i32]> = back.clauses().collect();
    assert_eq!(clauses[4], [7, -8, 6]);
    assert_eq!(clauses.len(), 8);

    let line = walk(
        F,
        &new.log,
        41,
        "s SATISFIABLE\nv 1 2 3 4 5 -6 -7 -8 -9 10 0\n",
    );
    assert_eq!(line.as_deref(), Ok("v -1 -2 -3 4 -5 -6 0\n"));
}

/// Six literals that nothing forbids are a choice.
#[test]
fn six_literals() {
    let [counter, order] =
        [Form::Counter, Form::Order].map(|form| encode(SIX, form, Arrangement::AsListed));
    for (new, clauses, lines) in [(&counter, 20, 21), (&order, 4, 37)] {
        let tally = &new.tally;
        assert_eq!((tally.choices, tally.highest), (1, 11));
        assert_eq!((tally.clauses, tally.lines), (clauses, lines));
    }
    let steps = "p cnf 11 4\n8 -7 0\n9 -8 0\n10 -9 0\n11 -10 0\n";
    assert_eq!(String::from_utf8_lossy(&order.formula), steps);
    let answer = "s SATISFIABLE\nv 1 2 -3 -4 -5 -6 -7 -8 9 10 11 0\n";
    let line = walk(SIX, &order.log, 37, answer);
    assert_eq!(line.as_deref(), Ok("v -1 -2 3 -4 -5 -6 0\n"));
    let refused = walk(SIX, &counter.log, 21, answer);
    assert_eq!(refused, Err(Error::Refused(Refusal(44))));
}

/// All copies of a pair are deleted, and no pair is added that does not stand.
#[test]
fn copies_of_pairs() {
    let log = "-6 1 0\n6 -1 0\n-7 6 2 0\n7 -6 0\n7 -2 0\n-8 7 3 0\n8 -7 0\n8 -3 0\n-9 8 4 0\n9 -8 0\n9 -4 0\n\
               -2 -6 0\n-3 -7 0\n-4 -8 0\n-5 -9 0\n9 5 0\n\
               d 1 2 3 4 5 0\nd -1 -2 0\nd -1 -2 0\nd -1 -3 0\nd -1 -3 0\n";
    let counter = encode(COPIES, Form::Counter, Arrangement::AsListed);
    assert_eq!(String::from_utf8_lossy(&counter.log), log);
    assert_eq!((counter.tally.lines, counter.tally.log_bytes), (21, 175));
    let order = encode(COPIES, Form::Order, Arrangement::AsListed);
    assert!(order.log.starts_with(log.as_bytes()));

    let read = read_formula(COPIES.as_bytes(), &INPUT_LIMITS).unwrap();
    for way in WAYS {
        let room = Room::exact(&read, &run_model(&read, way));
        let number = compare_reencode(COPIES.as_bytes(), way, room);
        assert_eq!(number, 0);
    }
}

/// A repeated literal is kept once; a clause that holds a literal and its negation is left out.
#[test]
fn one_clause() {
    for (body, log, kept, line) in [
        ("1 1 0", "d 1 0\n", &[&[1][..]][..], "v 1 0\n"),
        ("1 -1 0", "", &[], "v -1 0\n"),
        ("1 -1 1 0", "", &[], "v -1 0\n"),
    ] {
        let text = format!("p cnf 1 1\n{body}\n");
        expect(&text, log, "p cnf 1 0\n");
        let back = read_back(text.as_bytes(), None).unwrap();
        assert_eq!(back.clauses().collect::<Vec<_>>(), kept);
        let lines = log.lines().count();
        let walked = walk(&text, log.as_bytes(), lines, "s SATISFIABLE\nv 0\n");
        assert_eq!(walked.as_deref(), Ok(line));
    }
}

fn record(first: u32, length: u32, clauses: u32) -> ChoiceRecord {
    ChoiceRecord {
        first,
        length,
        clauses,
    }
}

/// Three clauses of the input are resolved into one choice; with a step its new variables begin later.
#[test]
fn three_clauses_in_a_choice() {
    let clashes = "1 2 4 5 0\nd 3 1 2 0\nd -3 4 5 0\n1 2 4 6 7 8 0\nd 5 1 2 4 0\nd -5 6 7 8 0\n";
    for way in WAYS {
        for (step, first) in [
            (1, 9),
            (2, 9),
            (3, 10),
            (8, 9),
            (9, 10),
            (10, 11),
            (100, 101),
        ] {
            let way = way.with_step(step);
            let new = reencode(CHAIN.as_bytes(), way, ReencodeRoom::default()).unwrap();
            let log = String::from_utf8_lossy(&new.log);
            assert!(log.starts_with(&format!("{clashes}-{first} 1 0\n{first} -1 0\n")));
            assert_eq!(new.table, [record(first, 6, 3)]);
            assert_eq!(new.tally.highest, u64::from(first) + 4);
        }
    }
}

/// A choice longer than the step: the next begins at the first number above it that is 1 more than a multiple.
#[test]
fn tables() {
    let choices = |sizes: &[i32]| {
        let mut text = format!("p cnf {} {}\n", sizes.iter().sum::<i32>(), sizes.len());
        let mut literals = 1..;
        for &size in sizes {
            let clause = literals.by_ref().take(size as usize);
            text += &clause
                .map(|literal| format!("{literal} "))
                .collect::<String>();
            text += "0\n";
        }
        text
    };
    for (sizes, step, firsts) in [
        (&[5, 64, 6][..], 1, &[76, 80, 143][..]),
        (&[5, 64, 6], 10, &[81, 91, 161]),
        (&[64, 64], 63, &[190, 253]),
        (&[64, 64], 62, &[187, 311]),
        (&[5, 65, 5], 7, &[78, 85]),
        (&[4], 100, &[]),
    ] {
        let text = choices(sizes);
        let taken = sizes.iter().filter(|size| (5..=64).contains(*size));
        let records = firsts.iter().zip(taken);
        let records = records.map(|(&first, &size)| record(first, size as u32, 1));
        let records: Vec<ChoiceRecord> = records.collect();
        for way in WAYS {
            let way = way.with_step(step);
            let new = reencode(text.as_bytes(), way, ReencodeRoom::default()).unwrap();
            assert_eq!(new.table, records, "{sizes:?}, step {step}");
        }
    }
}

/// Plans of the sessions carried forward, over the log of either form.
#[test]
fn carried_forward() {
    let f_joined = common::formulas::JOINED_F;
    for (text, named, line) in [
        ("p cnf 0 0", "", "v 0"),
        ("p cnf 2 2\n1 2 0\n-1 -2 0\n", "2", "v -1 2 0"),
        ("p cnf 3 2\n1 2 0\n-1 3 0\n", "1 3", "v 1 -2 3 0"),
        (F, "4", "v -1 -2 -3 4 -5 -6 -7 -8 -9 10 0"),
        (F, "1 6 3", "v 1 -2 -3 -4 -5 6 7 8 9 10 0"),
        (f_joined, "-2 3 6 -4", "v -1 -2 3 -4 -5 6 -7 -8 9 10 0"),
        (SIX, "6", "v -1 -2 -3 -4 -5 6 -7 -8 -9 -10 -11 0"),
        (SIX, "3 5 6", "v -1 -2 3 -4 -5 -6 -7 -8 9 10 11 0"),
        (COPIES, "2 3", "v -1 2 -3 -4 -5 -6 7 8 9 0"),
        (
            CHAIN,
            "3 5 8",
            "v -1 -2 3 -4 5 -6 -7 8 -9 -10 -11 -12 -13 0",
        ),
        (CHAIN, "2 4 7", "v -1 2 -3 -4 -5 -6 -7 -8 -9 10 11 12 13 0"),
    ] {
        for form in [Form::Counter, Form::Order] {
            let new = encode(text, form, Arrangement::AsListed);
            let found = forward(text, &new.log, named);
            assert_eq!(found, Ok(format!("{line}\n")), "{named} of {text}");
        }
    }
}

/// Skipped numbers are false, and have their place in the line.
#[test]
fn carried_forward_over_skipped_numbers() {
    let way = WAYS[0].with_step(10);
    let new = reencode(CHAIN.as_bytes(), way, ReencodeRoom::default()).unwrap();
    let line = "v 1 -2 3 -4 5 -6 -7 -8 -9 -10 11 12 13 14 15 0\n";
    let found = forward(CHAIN, &new.log, "1 3 5 8");
    assert_eq!(found.as_deref(), Ok(line));
}

/// What is no plan, and a log that is another formula's.
#[test]
fn not_carried_forward() {
    let [of_f, of_six] = [F, SIX].map(|text| encode(text, Form::Counter, Arrangement::AsListed));
    for (text, log, named, number) in [
        ("p cnf 0 1\n0\n", &b""[..], "", 45),
        ("p cnf 1 2\n1 0\n-1 0\n", b"", "1", 45),
        (F, &of_f.log, "1", 45),
        (F, &of_f.log, "7", 42),
        (F, &of_f.log, "-1 1", 43),
        ("p cnf 6 0\n", &of_six.log[..of_six.log.len() - 16], "", 46),
        ("p cnf 6 0\n", &of_six.log, "", 32),
    ] {
        let refused = forward(text, log, named);
        assert_eq!(refused, Err(Error::Refused(Refusal(number))), "{text}");
    }
}

#[test]
fn refusals_of_one_clause() {
    let cases = [("2 0", 4), ("-0", 3), ("1", 7), ("1 0 1 0", 8)];
    for (body, number) in cases {
        let text = format!("p cnf 1 1\n{body}\n");
        let refused = reencode(text.as_bytes(), WAYS[0], ReencodeRoom::default());
        assert_eq!(refused, Err(Error::Refused(Refusal(number))), "{body}");
    }
}

#[test]
fn sizes_4_5_64_65() {
    for size in [4, 5, 64, 65] {
        let literals: String = (1..=size).map(|literal| format!("{literal} ")).collect();
        let negated: String = (1..=size)
            .map(|literal| format!("-{literal} 0\n-{literal} 0\n"))
            .collect();
        let text = format!("p cnf {size} {}\n{literals}0\n{negated}", 2 * size + 1);
        let new = encode(&text, Form::Counter, Arrangement::AsListed);
        let taken = [5, 64].contains(&size);
        assert_eq!(new.tally.choices, u64::from(taken));
        assert_eq!(String::from_utf8_lossy(&new.formula) == text, !taken);
    }
}

#[test]
fn alignment() {
    let negated: String = (1..=10)
        .map(|literal| format!("-{literal} 0\n-{literal} 0\n"))
        .collect();
    let text = format!("p cnf 10 24\n1 2 3 4 5 0\n6 7 8 9 10 0\n-1 -8 0\n-2 -6 0\n{negated}");
    for form in [Form::Counter, Form::Order] {
        let log = |arrangement| String::from_utf8(encode(&text, form, arrangement).log).unwrap();
        assert!(log(Arrangement::AsListed).contains("\nd 6 7 8 9 10 0\n"));
        assert!(log(Arrangement::Alignment).contains("\nd 8 6 7 9 10 0\n"));
    }
}
