//! Where a refused text's fault is: exact locations, and agreement with the library on damaged texts.

mod common;

use common::formulas::any_kind_joined;
use common::{count, over_seeds, run_model, sum, way_of, Carrying, Numbers, CARRYING, WAYS};
use model::generator::{answer_after, damage, damage_log, Joined, Random};
use model::sessions::{self, JOINED_E};
use model::texts::log_text;
use sirgholyn::limits::Limits;
use sirgholyn::location::{in_answer, in_formula, in_log, in_plan, Location};
use sirgholyn::shown::shown;
use sirgholyn::{read_back, reencode, Error, ReencodeRoom, Refusal, WalkBackRoom};

/// A row's location: line, byte, word.
type Place<'a> = (usize, usize, Option<&'a str>);

fn location((line, byte, word): Place) -> Location {
    let word = word.map(str::to_owned);
    Location { line, byte, word }
}

/// A call's number; 0 is a result.
fn number<R>(outcome: Result<R, Error>) -> u32 {
    match outcome {
        Ok(_) => 0,
        Err(Error::Refused(Refusal(number))) => number,
        Err(error) => panic!("{error}"),
    }
}

fn input_number(text: &[u8]) -> u32 {
    let room = ReencodeRoom::default();
    number(reencode(text, WAYS[0], room))
}

fn new_formula_number(text: &[u8]) -> u32 {
    number(read_back(text, None))
}

/// Which way, formula, log, number of kept lines, answer or plan.
#[derive(Clone, Copy)]
struct Walk<'a>(Carrying, &'a [u8], &'a [u8], usize, &'a [u8]);

impl Walk<'_> {
    fn number(self) -> u32 {
        let Walk(carrying, formula, log, kept, given) = self;
        let room = WalkBackRoom::default();
        number(carrying.call(formula, log, kept, given, room))
    }

    /// The place in the answer or plan.
    fn in_given(self, asked: u32) -> Option<Location> {
        let Walk(carrying, formula, log, kept, given) = self;
        match carrying {
            Carrying::Back => in_answer(formula, log, kept, given, asked),
            Carrying::Forward => in_plan(formula, log, kept, given, asked),
        }
    }
}

const OF_FORMULA: [u32; 7] = [1, 2, 3, 4, 7, 8, 9];
const OF_LOG: [u32; 3] = [31, 32, 34];
const OF_ANSWER: [u32; 3] = [41, 42, 43];
const ELSE: [u32; 13] = [0, 5, 6, 10, 11, 12, 14, 33, 44, 45, 46, 47, u32::MAX];

/// Of all numbers, a location is found for the library's alone, and only if it is one of these.
fn only(
    number: u32,
    located: &[u32],
    find: impl Fn(u32) -> Option<Location>,
    seen: &dyn Fn() -> String,
) {
    for asked in [&OF_FORMULA[..], &OF_LOG, &OF_ANSWER, &ELSE].concat() {
        let found = find(asked);
        let expected = asked == number && located.contains(&number);
        assert_eq!(found.is_some(), expected, "{asked}, {number}: {}", seen());
    }
}

/// The place in the text; its bytes are those shown.
fn offset(text: &[u8], found: &Location) -> usize {
    let mut lines = text.split_inclusive(|&byte| byte == b'\n');
    let before: usize = lines.by_ref().take(found.line - 1).map(<[u8]>::len).sum();
    assert!(found.byte <= lines.next().map_or(0, <[u8]>::len) + 1);
    let offset = before + found.byte - 1;
    let rest = shown(&text[offset..], usize::MAX);
    match &found.word {
        Some(word) => assert!(!rest.is_empty() && rest.starts_with(word.trim_end_matches("."))),
        None => assert_eq!(rest, ""),
    }
    offset
}

/// The text up to the first of these bytes after the place.
fn up_to<'a>(text: &'a [u8], place: usize, separators: &[u8]) -> &'a [u8] {
    let length = text[place..]
        .iter()
        .position(|byte| separators.contains(byte));
    length.map_or(text, |length| &text[..place + length])
}

/// Library and location agree; up to the fault the text is in order, and with its word it is not.
fn check_formula(text: &[u8], limits: &Limits, library: impl Fn(&[u8]) -> u32) -> u32 {
    let number = library(text);
    let find = |asked| in_formula(text, limits, asked);
    only(number, &OF_FORMULA, find, &|| shown(text, 4_000));
    let Some(found) = find(number) else {
        return number;
    };
    let start = offset(text, &found);
    let seen = || format!("{number} {found}: {}", shown(text, 4_000));
    match number {
        1 => {
            let mut comments = text[..start].split_inclusive(|&byte| byte == b'\n');
            assert!(comments.all(|line| line[0] == b'c'), "{}", seen());
            assert_ne!(text.get(start), Some(&b'c'), "{}", seen());
        }
        2 => {
            let digits = &up_to(text, start, b" \r\n")[start..];
            let value: f64 = shown(digits, usize::MAX).parse().unwrap();
            assert!(value > 8_000.0, "{}", seen());
        }
        7 => assert_eq!(start, text.len(), "{}", seen()),
        _ => {
            let before = library(&text[..start]);
            assert!([0, 7, 8].contains(&before), "{before}, {}", seen());
            let with = library(up_to(text, start, b" \t\r\n"));
            assert_eq!(with, number, "{}", seen());
        }
    }
    number
}

fn check_input(text: &[u8]) -> u32 {
    check_formula(text, &Limits::INPUT, input_number)
}

fn check_new_formula(text: &[u8]) -> u32 {
    check_formula(text, &Limits::NEW_FORMULA, new_formula_number)
}

/// Library and locations agree, and those in log, answer and plan are where the first fault is.
fn check_walk(walk: Walk) -> u32 {
    let Walk(carrying, formula, log, kept, given) = walk;
    let number = walk.number();
    let seen = || {
        let texts = [formula, log, given].map(|text| shown(text, 4_000));
        format!("{carrying:?}, kept {kept}: {}", texts.join("  |  "))
    };
    let find = |asked| in_formula(formula, &Limits::INPUT, asked);
    only(number, &OF_FORMULA, find, &seen);
    // The answer is read, and the plan tested, before the log is replayed.
    let find = |asked| {
        let unread = asked == 32 && (OF_ANSWER.contains(&number) || number == 45);
        (!unread).then(|| in_log(formula, log, kept, asked))?
    };
    only(number, &OF_LOG, find, &seen);
    if let Some(found) = find(number) {
        check_in_log(walk, number, &found, &seen);
    }
    only(number, &OF_ANSWER, |asked| walk.in_given(asked), &seen);
    if let Some(found) = walk.in_given(number) {
        check_in_given(walk, &found, &seen);
    }
    number
}

/// The lines before the fault's can be kept. Up to the fault its line can be completed, and no further.
fn check_in_log(walk: Walk, number: u32, found: &Location, seen: &dyn Fn() -> String) {
    let Walk(carrying, formula, log, _, given) = walk;
    // a variable of the answer may be above those of fewer lines
    let given = match carrying {
        Carrying::Back => b"s SATISFIABLE\nv 0\n",
        Carrying::Forward => given,
    };
    let keeping = |log: &[u8], kept| Walk(carrying, formula, log, kept, given).number();
    let start = offset(log, found);
    let before = keeping(log, found.line - 1);
    let in_order = before != number && ![31, 34].contains(&before);
    assert!(in_order, "{before}, {found}: {}", seen());
    assert_eq!(keeping(log, found.line), number, "{found}: {}", seen());
    if number != 31 || found.word.is_none() {
        return;
    }
    let completed = |part: &[u8]| {
        let rests: [&[u8]; 3] = [b"0\n", b" 0\n", b"\n"];
        let mut numbers = rests
            .map(|rest| keeping(&[part, rest].concat(), found.line))
            .into_iter();
        numbers.any(|number| number != 31)
    };
    let with = up_to(log, start + 1, b" \n");
    assert!(completed(&log[..start]), "{found}: {}", seen());
    assert!(!completed(with), "{found}: {}", seen());
}

/// Up to the fault the answer or plan can be completed, and no further.
fn check_in_given(walk: Walk, found: &Location, seen: &dyn Fn() -> String) {
    let Walk(carrying, formula, log, kept, given) = walk;
    let start = offset(given, found);
    let completed = |part: &[u8], rest: &str| {
        let given = [part, rest.as_bytes()].concat();
        !OF_ANSWER.contains(&Walk(carrying, formula, log, kept, &given).number())
    };
    let rests = [
        "",
        "0",
        "v 0",
        "\nv 0",
        "s SATISFIABLE\nv 0",
        "\ns SATISFIABLE\nv 0",
    ];
    let mut rests = rests.into_iter();
    assert!(
        rests.any(|rest| completed(&given[..start], rest)),
        "{found}: {}",
        seen()
    );
    let (separators, rest): (&[u8], _) = match (&found.word, found.byte) {
        (None, _) => (b"", ""),
        (_, 1) => (b"\n", "\n"),
        _ => (b" \t\n", " 0"),
    };
    let with = up_to(given, start, separators);
    assert!(!completed(with, rest), "{found}: {}", seen());
}

fn formula_rows(limits: &Limits, check: fn(&[u8]) -> u32, rows: &[(&[u8], u32, Place)]) {
    for (text, number, place) in rows {
        assert_eq!(check(text), *number, "{}", shown(text, 100));
        let found = in_formula(text, limits, *number).unwrap();
        assert_eq!(found, location(*place), "{}", shown(text, 100));
    }
}

#[test]
fn display() {
    let shown = |place| location(place).to_string();
    assert_eq!(shown((3, 7, Some("foo"))), "line 3, byte 7: `foo`");
    assert_eq!(shown((3, 7, None)), "line 3, byte 7, where the text ends");
}

#[test]
fn headers() {
    let long = [b"p cnf 1 1".as_slice(), &[b' '; 1_000]].concat();
    let digits = [b"c\np cnf 0 ".as_slice(), &[b'7'; 1_000], b"\n"].concat();
    let rows: &[(&[u8], u32, Place)] = &[
        (b"", 1, (1, 1, None)),
        (b"c only", 1, (1, 7, None)),
        (b"c\nc\n", 1, (3, 1, None)),
        (b"\np cnf 0 0\n", 1, (1, 1, Some(r"\n"))),
        (b"c\n\r\np cnf 0 0\n", 1, (2, 1, Some(r"\r\n"))),
        (b"1 2 0\n", 1, (1, 1, Some("1 2 0"))),
        (b"p cnf 1", 1, (1, 1, Some("p cnf 1"))),
        (b"c x\r\np cnf 1 1 \n1 0\n", 1, (2, 1, Some("p cnf 1 1 "))),
        (b"c x\rp cnf 1 1\n1 0\n", 1, (2, 1, Some("1 0"))),
        (b"p cnf 1 1\r", 1, (1, 1, Some(r"p cnf 1 1\r"))),
        (b"p cnf 1 1\r\r\n1 0\n", 1, (1, 1, Some(r"p cnf 1 1\r"))),
        (b"p\tcnf 1 1\n1 0\n", 1, (1, 1, Some(r"p\tcnf 1 1"))),
        (b"p cnf 8001 x\n", 1, (1, 1, Some("p cnf 8001 x"))),
        (b"p cnf 01 1\n", 1, (1, 1, Some("p cnf 01 1"))),
        (b"p cnf 1 -1\n", 1, (1, 1, Some("p cnf 1 -1"))),
        (b"p cnf 1  1\n", 1, (1, 1, Some("p cnf 1  1"))),
        (b"p  cnf 1 1\n", 1, (1, 1, Some("p  cnf 1 1"))),
        (
            b"\xef\xbb\xbfp cnf 0 0",
            1,
            (1, 1, Some(r"\xef\xbb\xbfp cnf 0 0")),
        ),
        (b"\xff\x00\x1b\n", 1, (1, 1, Some(r"\xff\x00\x1b"))),
        (
            &long,
            1,
            (1, 1, Some("p cnf 1 1                               ..")),
        ),
        (b"p cnf 8001 1\n", 2, (1, 7, Some("8001"))),
        (b"p cnf 8000 20001", 2, (1, 12, Some("20001"))),
        (b"c\nc\np cnf 8001 20001\r\n", 2, (3, 7, Some("8001"))),
        (
            b"p cnf 1000000000000000000000000000000 0\n",
            2,
            (1, 7, Some("1000000000000000000000000000000")),
        ),
        (
            &digits,
            2,
            (2, 9, Some("7777777777777777777777777777777777777777..")),
        ),
    ];
    formula_rows(&Limits::INPUT, check_input, rows);
    let rows: &[(&[u8], u32, Place)] = &[
        (b"p cnf 1", 1, (1, 1, Some("p cnf 1"))),
        (b"p cnf 70001 0\n", 2, (1, 7, Some("70001"))),
        (b"p cnf 70000 300001\n", 2, (1, 13, Some("300001"))),
    ];
    formula_rows(&Limits::NEW_FORMULA, check_new_formula, rows);
}

#[test]
fn clauses() {
    let long = [b"p cnf 1 1\n1 ".as_slice(), &[b'x'; 1_000], b" 0\n"].concat();
    let digits = [b"p cnf 1 1\n-".as_slice(), &[b'9'; 1_000], b" 0\n"].concat();
    let rows: &[(&[u8], u32, Place)] = &[
        (b"p cnf 2 1\n1 x 0\n", 3, (2, 3, Some("x"))),
        (b"p cnf 2 1\r\n1\t \r\n\t-0 0\r\n", 3, (3, 2, Some("-0"))),
        (b"p cnf 2 2\n1 0 00", 3, (2, 5, Some("00"))),
        (b"p cnf 2 2\n1 0 +1 0\n", 3, (2, 5, Some("+1"))),
        (b"p cnf 2 2\n1 - 0\n", 3, (2, 3, Some("-"))),
        (b"p cnf 2 1\nc 1\n1 0\n", 3, (2, 1, Some("c"))),
        (b"p cnf 2 1\n1\x0b0\n", 3, (2, 1, Some(r"1\x0b0"))),
        (b"p cnf 2 1\n1 \x00\xff 0\n", 3, (2, 3, Some(r"\x00\xff"))),
        (b"p cnf 2 1\n1 \xc3\xa4` 0\n", 3, (2, 3, Some(r"ä\x60"))),
        (
            &long,
            3,
            (2, 3, Some("xxxxxxxxxxxxxxxxxxxxxxxxxxxxxxxxxxxxxxxx..")),
        ),
        (b"p cnf 2 1\n1 3 0\n", 4, (2, 3, Some("3"))),
        (b"p cnf 0 1\n\n\n-1 0\n", 4, (4, 1, Some("-1"))),
        (
            &digits,
            4,
            (2, 1, Some("-999999999999999999999999999999999999999..")),
        ),
        (b"p cnf 2 1\n1", 7, (2, 2, None)),
        (b"p cnf 2 1\n1 2\r\n\n", 7, (4, 1, None)),
        (b"p cnf 2 9\n1 0\n2 ", 7, (3, 3, None)),
        (b"p cnf 1 1", 8, (1, 10, None)),
        (b"p cnf 1 2\n1 0\n", 8, (3, 1, None)),
        (b"p cnf 1 1\n1 0 1 0\n", 8, (2, 5, Some("1"))),
        (b"p cnf 0 0\n\n c", 8, (3, 2, Some("c"))),
        (b"p cnf 1 1\n1 0\n%\n0\n", 8, (3, 1, Some("%"))),
        (b"p cnf 1 1\n1 0\n\x1a", 8, (3, 1, Some(r"\x1a"))),
    ];
    formula_rows(&Limits::INPUT, check_input, rows);
    formula_rows(&Limits::NEW_FORMULA, check_new_formula, rows);
    let rows: &[(&[u8], u32, Place)] = &[
        (
            b"p cnf 70000 1\n70000 -70001 0\n",
            4,
            (2, 7, Some("-70001")),
        ),
        (b"p cnf 8001 2\n-8001 0\n", 8, (3, 1, None)),
    ];
    formula_rows(&Limits::NEW_FORMULA, check_new_formula, rows);
}

/// Faults in clauses with repeats, and in and around clauses that are left out.
#[test]
fn clauses_not_kept_in_full() {
    let rows: &[(&[u8], u32, Place)] = &[
        (b"p cnf 2 1\n1 1 x 0\n", 3, (2, 5, Some("x"))),
        (b"p cnf 2 1\n1 -1 -0 0\n", 3, (2, 6, Some("-0"))),
        (b"p cnf 2 2\n1 -1 0\n+1 0\n", 3, (3, 1, Some("+1"))),
        (b"p cnf 2 1\n1 2 1\r\n 3 0\n", 4, (3, 2, Some("3"))),
        (b"p cnf 2 2\n-2 0 2 -2\n-3 0\n", 4, (3, 1, Some("-3"))),
        (b"p cnf 2 1\n1 1", 7, (2, 4, None)),
        (b"p cnf 2 1\n1 -1\n1\n", 7, (4, 1, None)),
        (b"p cnf 2 2\n1 -1 0 2 -2\n", 7, (3, 1, None)),
        (b"p cnf 2 2\n1 -1 0\n", 8, (3, 1, None)),
        (b"p cnf 2 2\n1 1 1 0\n\n", 8, (4, 1, None)),
        (b"p cnf 2 1\n1 -1 0\n2 0\n", 8, (3, 1, Some("2"))),
        (b"p cnf 2 1\n2 0\n1 -1 0\n", 8, (3, 1, Some("1"))),
        (b"p cnf 2 1\n1 -1 0\t0\n", 8, (2, 8, Some("0"))),
    ];
    formula_rows(&Limits::INPUT, check_input, rows);
    formula_rows(&Limits::NEW_FORMULA, check_new_formula, rows);
}

/// As many literals as the limit allows in clauses of up to V, one a line, and then two more clauses.
fn full_formula(variables: usize, mut literals: usize) -> (Vec<u8>, usize) {
    let clauses = literals.div_ceil(variables);
    let mut text = format!("p cnf {variables} {}\n", clauses + 2);
    for _ in 0..clauses {
        let size = literals.min(variables);
        (1..=size).for_each(|literal| text += &format!("-{literal} "));
        text += "0\n";
        literals -= size;
    }
    (text.into_bytes(), clauses)
}

/// The `0` after which there are too many.
#[test]
fn too_many_literals() {
    for (limits, check) in [
        (Limits::INPUT, check_input as fn(&[u8]) -> u32),
        (Limits::NEW_FORMULA, check_new_formula),
    ] {
        let (full, clauses) = full_formula(limits.variables, limits.literals);
        let with = |rest: &[u8]| [&full[..], rest].concat();
        let rows: &[(&[u8], u32, Place)] = &[
            (&with(b"0\n\t 17 0\n"), 9, (clauses + 3, 6, Some("0"))),
            (&with(b"-1 2\n-1\t0\n0\n"), 9, (clauses + 3, 4, Some("0"))),
            (&with(b"3 -3 0 5 5\r\n0\n"), 9, (clauses + 3, 1, Some("0"))),
            (&with(b"0\n17 x"), 3, (clauses + 3, 4, Some("x"))),
            (&with(b"0\n17"), 7, (clauses + 3, 3, None)),
        ];
        formula_rows(&limits, check, rows);
        assert_eq!(check(&with(b"0 1 1 -1 0\n")), 0);
        let (one_less, _) = full_formula(limits.variables, limits.literals - 1);
        assert_eq!(check(&[&one_less[..], b"5 5 0\n0\n"].concat()), 0);
    }
}

#[test]
fn logs() {
    let formulas: [&[u8]; 2] = [
        b"p cnf 3 3\n1 2 0\n-1 3 0\n2 1 0\n",
        b"p cnf 3 5\n1 2 1 0\n1 -1 0\n-1 3 3 0\n2 1 0\n3 1 2 -3 3 0\n",
    ];
    let long = [b"1 ".as_slice(), &[b'2'; 1_000], b" 0\n"].concat();
    let rows: &[(&[u8], usize, u32, Place)] = &[
        (b"\n", 1, 31, (1, 1, Some(r"\n"))),
        (b"1 0\n\r\n", 2, 31, (2, 1, Some(r"\r"))),
        (b"1 0\r\n", 1, 31, (1, 3, Some(r"0\r"))),
        (b"1 0\n2 3\n", 2, 31, (2, 4, Some(r"\n"))),
        (b"1 \n", 1, 31, (1, 3, Some(r"\n"))),
        (b"1  0\n", 1, 31, (1, 3, Some(" "))),
        (b" 1 0\n", 1, 31, (1, 1, Some(" "))),
        (b"1 0 \n", 1, 31, (1, 4, Some(" "))),
        (b"1 0 2 0\n", 1, 31, (1, 4, Some(" 2 0"))),
        (b"d\n", 1, 31, (1, 2, Some(r"\n"))),
        (b"d  1 0\n", 1, 31, (1, 3, Some(" "))),
        (b"d d 1 0\n", 1, 31, (1, 3, Some("d"))),
        (b"d1 0\n", 1, 31, (1, 1, Some("d1"))),
        (b"1\t2 0\n", 1, 31, (1, 1, Some(r"1\t2"))),
        (b"c note\n", 1, 31, (1, 1, Some("c"))),
        (b"1 x\xff\x00 0\n", 1, 31, (1, 3, Some(r"x\xff\x00"))),
        (b"0\nd 1 2 1 0\n", 2, 31, (2, 7, Some("1"))),
        (b"3 -3 0\n", 1, 31, (1, 3, Some("-3"))),
        (b"1 0\n1 70001 0\n", 2, 31, (2, 3, Some("70001"))),
        (
            &long,
            1,
            31,
            (1, 3, Some("2222222222222222222222222222222222222222..")),
        ),
        (b"1 0\n2 0", 2, 31, (2, 4, None)),
        (b"1 0\n2 x", 2, 31, (2, 4, None)),
        (b"", 1, 34, (1, 1, None)),
        (b"1 0\n2 0\n", 3, 34, (3, 1, None)),
        (b"0\n", usize::MAX, 34, (2, 1, None)),
        (b"d 1 3 0\n", 1, 32, (1, 1, Some("d 1 3 0"))),
        (
            b"d 2 1 0\nd 1 2 0\nd 2 1 0\n",
            3,
            32,
            (3, 1, Some("d 2 1 0")),
        ),
        (b"3 0\nd 3 0\n0\nd 0\nd 0\n", 5, 32, (5, 1, Some("d 0"))),
        (
            b"d 1 2 3 -4 -5 -6 -7 -8 -9 -10 -11 -12 -13 0\n",
            1,
            32,
            (1, 1, Some("d 1 2 3 -4 -5 -6 -7 -8 -9 -10 -11 -12 -1..")),
        ),
    ];
    for formula in formulas {
        for (log, kept, number, place) in rows {
            for carrying in CARRYING {
                let walk = Walk(carrying, formula, log, *kept, b"s SATISFIABLE\nv 2 0\n");
                assert_eq!(check_walk(walk), *number, "{}", shown(log, 100));
            }
            let found = in_log(formula, log, *kept, *number).unwrap();
            assert_eq!(found, location(*place), "{}", shown(log, 100));
        }
    }
}

/// Up to 5 is allowed: by the kept lines in an answer, by V in a plan.
#[test]
fn answers_and_plans() {
    let log = b"5 0\nd 5 0\n6 0\n";
    let long = [b"s SATISFIABLE\nv ".as_slice(), &[b'6'; 1_000], b" 0\n"].concat();
    let rows: &[(&[u8], u32, Place)] = &[
        (b"", 41, (1, 1, None)),
        (b"c\nc", 41, (2, 2, None)),
        (b"s UNSATISFIABLE\n", 41, (1, 1, Some("s UNSATISFIABLE"))),
        (b"s SATISFIABLE \nv 0\n", 41, (1, 1, Some("s SATISFIABLE "))),
        (b"s SATISFIABLE\r", 41, (1, 1, Some(r"s SATISFIABLE\r"))),
        (b"v 1 0\ns SATISFIABLE\n", 41, (1, 1, Some("v 1 0"))),
        (b"c\n\ns SATISFIABLE\nv 0\n", 41, (2, 1, Some(r"\n"))),
        (b"s SATISFIABLE\nv 1\n\r\nv 0\n", 41, (3, 1, Some(r"\r\n"))),
        (
            b"s SATISFIABLE\ns SATISFIABLE\nv 0\n",
            41,
            (2, 1, Some("s SATISFIABLE")),
        ),
        (b"s SATISFIABLE\nv\nv 0\n", 41, (2, 1, Some("v"))),
        (b"s SATISFIABLE\nv\t0\n", 41, (2, 1, Some(r"v\t0"))),
        (b"s SATISFIABLE\r\nv 1 x 0\r\n", 41, (2, 5, Some("x"))),
        (
            b"s SATISFIABLE\nv \t 1 \t\xff\x00 0\n",
            41,
            (2, 8, Some(r"\xff\x00")),
        ),
        (b"s SATISFIABLE\nv 1 0\r", 41, (2, 5, Some(r"0\r"))),
        (b"s SATISFIABLE\nv 1 0 2\n", 41, (2, 7, Some("2"))),
        (b"s SATISFIABLE\nv 1 0\nc\nv 0\n", 41, (4, 1, Some("v 0"))),
        (b"s SATISFIABLE\nv 1 0\n\n", 41, (3, 1, Some(r"\n"))),
        (b"s SATISFIABLE\nv 1 2\n", 41, (3, 1, None)),
        (b"s SATISFIABLE\nv 1 2", 41, (2, 6, None)),
        (b"s SATISFIABLE\nv 1 -6 0\n", 42, (2, 5, Some("-6"))),
        (
            b"s SATISFIABLE\nv 5\nc\nv\x20\nv \t 99999999999999999999 0",
            42,
            (5, 5, Some("99999999999999999999")),
        ),
        (
            &long,
            42,
            (2, 3, Some("6666666666666666666666666666666666666666..")),
        ),
        (b"s SATISFIABLE\nv 1 2 1 0\n", 43, (2, 7, Some("1"))),
        (
            b"s SATISFIABLE\r\nv 5 \r\nv -5 0\r\n",
            43,
            (3, 3, Some("-5")),
        ),
    ];
    for (given, number, place) in rows {
        for walk in [
            Walk(Carrying::Back, b"p cnf 3 1\n1 2 0\n", log, 2, given),
            Walk(Carrying::Forward, b"p cnf 5 1\n1 2 0\n", log, 3, given),
        ] {
            assert_eq!(check_walk(walk), *number, "{}", shown(given, 100));
            let found = walk.in_given(*number).unwrap();
            assert_eq!(found, location(*place), "{}", shown(given, 100));
        }
    }
}

/// Texts before the one that was refused are in order, or nothing is said.
#[test]
fn other_texts_wrong() {
    let (formula, log, answer) = (b"p cnf 1 1\n1 0\n", b"x\n", b"s UNKNOWN\n");
    assert!(in_log(b"p cnf 1 1\n", log, 1, 31).is_none());
    for in_given in [in_answer, in_plan] {
        assert!(in_given(b"p cnf 1 1\n", b"", 0, answer, 41).is_none());
        assert!(in_given(formula, log, 1, answer, 41).is_none());
        assert!(in_given(formula, log, 0, answer, 41).is_some());
    }
}

/// The text cut before each byte, without it, and with others before it or in its place.
fn each_damage(text: &[u8]) -> Vec<Vec<u8>> {
    const BYTES: [&[u8]; 14] = [
        b"0", b"1", b"2", b"9", b"-", b" ", b"\t", b"\r", b"\n", b"c", b"d", b"\0", b"\xff",
        b" 1 -1",
    ];
    let at_place = |place: usize| {
        let (before, after) = (&text[..place], &text[place + 1..]);
        let mut all = vec![before.to_vec(), [before, after].concat()];
        for bytes in BYTES {
            all.push([before, bytes, after].concat());
            all.push([before, bytes, &text[place..]].concat());
        }
        all
    };
    (0..text.len()).flat_map(at_place).collect()
}

/// Each of the numbers occurred so often.
fn expect(counted: Vec<Numbers>, expected: &[u32], least: usize) {
    let numbers = sum(counted);
    println!("{numbers:?}");
    for number in expected {
        assert!(
            numbers.get(number).copied().unwrap_or(0) >= least,
            "{number}"
        );
    }
}

#[test]
fn each_byte_of_a_formula() {
    let texts: [&[u8]; 4] = [
        JOINED_E.as_bytes(),
        b"c two lines\r\nc\np cnf 3 2\r\n1 2 0\n-1 3 0",
        b"p cnf 2 3\n1 -2 0\t2\r\n-1 0 0\n",
        b"p cnf 8000 1\n8000 -7999 0\n",
    ];
    let texts: Vec<_> = texts.into_iter().flat_map(each_damage).collect();
    let counted = over_seeds(0..texts.len() as u64, |index, numbers: &mut Numbers| {
        let text = &texts[index as usize];
        count(numbers, check_input(text));
        count(numbers, check_new_formula(text));
    });
    expect(counted, &[0, 1, 2, 3, 4, 7, 8], 24);
}

#[test]
fn each_byte_of_a_log_an_answer_and_a_plan() {
    let formula = JOINED_E.as_bytes();
    let log = b"2 3 0\nd 1 2 0\nd -1 3 0\nd 2 3 0\n";
    let answer = b"c first\ns SATISFIABLE\r\nv 1 \nc between\nv -2\t-3  0 \nc last\n";
    let plan = b"s SATISFIABLE\r\nv 1\t-2\nc between\nv 3 0 \n";
    let [logs, answers, plans] = [&log[..], answer, plan].map(each_damage);
    let back = |log, answer| Walk(Carrying::Back, formula, log, 4, answer);
    let over_logs = logs.iter().map(|log| back(log, answer));
    let over_answers = answers.iter().map(|answer| back(log, answer));
    let over_plans = plans
        .iter()
        .map(|plan| Walk(Carrying::Forward, formula, log, 4, plan));
    let walks: Vec<Walk> = over_logs.chain(over_answers).chain(over_plans).collect();
    let counted = over_seeds(0..walks.len() as u64, |index, numbers: &mut Numbers| {
        count(numbers, check_walk(walks[index as usize]));
    });
    expect(counted, &[0, 31, 32, 41, 42, 43], 24);
}

#[test]
fn damaged_formulas() {
    let counted = over_seeds(0..4_000, |seed, numbers: &mut Numbers| {
        let mut random = Random::new(seed);
        let mut text = any_kind_joined(&mut random).text;
        for _ in 0..random.below(3) {
            text = damage(&mut random, &text);
        }
        count(numbers, check_input(&text));
        count(numbers, check_new_formula(&text));
    });
    expect(counted, &[0, 1, 3, 4, 7, 8], 24);
}

#[test]
fn damaged_logs_answers_and_plans() {
    let counted = over_seeds(0..5_000, |seed, numbers: &mut Numbers| {
        let carrying = CARRYING[usize::from(seed >= 4_000)];
        let mut random = Random::new(seed);
        let Joined { mut text, formula } = any_kind_joined(&mut random);
        let mut lines = run_model(&formula, way_of(seed)).log;
        if random.chance(60) {
            lines = damage_log(&mut random, &lines);
        }
        let kept = match random.chance(70) {
            true => lines.len(),
            false => random.below(lines.len() + 2),
        };
        let answered = match carrying {
            Carrying::Back => &lines[..kept.min(lines.len())],
            Carrying::Forward => &[],
        };
        let mut given = answer_after(&mut random, &formula, answered);
        let mut log = log_text(&lines);
        for (part, percent) in [(&mut text, 5), (&mut log, 20), (&mut given, 30)] {
            if random.chance(percent) {
                *part = damage(&mut random, part);
            }
        }
        let walk = Walk(carrying, &text, &log, kept, &given);
        count(numbers, check_walk(walk));
    });
    expect(counted, &[0, 31, 32, 34, 41, 42, 43, 45], 24);
}

#[test]
fn random_bytes() {
    const OFTEN: &[u8] = b"0123456789--  \n\n\t\rcdpsv";
    let counted = over_seeds(0..4_000, |seed, numbers: &mut Numbers| {
        let mut random = Random::new(seed);
        let mut bytes = |start: &[u8]| {
            let mut text = if random.chance(70) { start } else { b"" }.to_vec();
            let any = random.chance(30);
            for _ in 0..random.below(60) {
                let byte = if any {
                    random.below(256) as u8
                } else {
                    *random.one_of(OFTEN)
                };
                text.push(byte);
            }
            text
        };
        let text = bytes(b"p cnf 9 3\n");
        let log = bytes(b"d 1 2 0\n");
        let answer = bytes(b"s SATISFIABLE\nv ");
        count(numbers, check_input(&text));
        count(numbers, check_new_formula(&text));
        let formula = if seed % 2 == 0 {
            sessions::F.as_bytes()
        } else {
            &text
        };
        let kept = [0, 1, 2, usize::MAX][seed as usize % 4];
        for carrying in CARRYING {
            let walk = Walk(carrying, formula, &log, kept, &answer);
            count(numbers, check_walk(walk));
        }
    });
    expect(counted, &[1, 3, 31, 41], 24);
}

const LONG: usize = 8 << 20;

/// Megabytes of one kind: what is more than linear would not end.
#[test]
fn long_texts() {
    let parts: [&[u8]; 15] = [
        b" ",
        b"\n",
        b"\r",
        b"c",
        b"c\n",
        b"7",
        b"-",
        b"0 ",
        b"0\n",
        b"1 0\nd 1 0\n",
        b"v \n",
        b"x ",
        b"\xff",
        b"\xe2\x82",
        b"d ",
    ];
    let starts: [&[u8]; 5] = [b"", b"c\n", b"p cnf 9 9\n", b"s SATISFIABLE\nv ", b"0\nd "];
    for part in parts {
        let rest = part.repeat(LONG / part.len());
        for start in starts {
            let text = [start, &rest].concat();
            let formula = b"p cnf 1 1\n1 0\n";
            for asked in [1, 31, 41] {
                let _ = in_formula(&text, &Limits::INPUT, asked);
                let _ = in_log(formula, &text, usize::MAX, asked);
                let _ = in_answer(formula, b"", 0, &text, asked);
            }
        }
    }
}

/// One clause of megabytes: a literal repeated, opposed, and many different ones again and again. A walk of the
/// clause for each literal would not end.
#[test]
fn long_clauses() {
    let all_literals: String = (1..=70_000).map(|v| format!("{v} -{v} ")).collect();
    for words in ["1 ", "1 -1 ", &all_literals] {
        let words = words.repeat(LONG / words.len());
        let text = format!("p cnf 70000 1\n{words}");
        let rows: &[(&[u8], u32, Place)] = &[(text.as_bytes(), 7, (2, words.len() + 1, None))];
        formula_rows(&Limits::NEW_FORMULA, check_new_formula, rows);
    }
}
