//! Texts, logs, answers and plans with each byte dropped, doubled and changed, and random bytes: library and model
//! agree, and nothing is read or written outside.

mod common;

use common::formulas::JOINED_F;
use common::{
    compare_read_back, compare_reencode, compare_sizes, count, expect_exact, expect_numbers,
    over_seeds, run_model, sum, way_of, Carrying, Numbers, Room, CARRYING, WAYS,
};
use model::generator::Random;
use model::reading::{read_formula, INPUT_LIMITS};
use model::sessions::{self, COPIES, JOINED_E};
use model::texts::log_text;

const TEXTS: [&[u8]; 10] = [
    F,
    JOINED_F.as_bytes(),
    JOINED_E.as_bytes(),
    b"p cnf 0 0",
    b"c two lines\r\nc\np cnf 3 2\r\n1 2 0\n-1 3 0",
    b"p cnf 2 3\n1 -2 0\t2\r\n-1 0 0\n",
    b"p cnf 10 9\n1 2 3 4 5 0\n6 7 8 9 10 0\n-1 -8 0\n-2 -6 0\n-1 -2 0\n-2 -1 0\n-3 -4 -5 -7 0\n-3 -9 -10 0\n-4 -5 -7 -9 -10 0\n",
    b"p cnf 8000 1\n8000 -7999 0\n",
    // a choice that nothing forbids, and none where a literal is lost
    b"p cnf 5 1\n1 2 3 4 5 0\n",
    COPIES.as_bytes(),
];
const ROOM: Room = Room {
    work: 112_000,
    log: 4_000,
    formula: 4_000,
    table: 10,
};

/// The text with each byte dropped, doubled and changed to others, and cut before it.
fn each_damage(text: &[u8]) -> Vec<Vec<u8>> {
    const BYTES: &[u8] = b"0129- \t\r\ncdpsv\0\x0b\xff";
    let mut all = Vec::new();
    for place in 0..text.len() {
        let with = |bytes: &[u8]| [&text[..place], bytes, &text[place + 1..]].concat();
        all.push(text[..place].to_vec());
        all.push(with(&[]));
        all.push(with(&[text[place], text[place]]));
        for &byte in BYTES {
            all.push(with(&[byte]));
            all.push(with(&[byte, text[place]]));
        }
        all.push(with(&[text[place] ^ 1]));
        all.push(with(&[text[place] ^ 128]));
    }
    all
}

const F: &[u8] = sessions::F.as_bytes();

#[test]
fn formulas() {
    let counted = over_seeds(0..TEXTS.len() as u64, |index, numbers: &mut Numbers| {
        for (turn, text) in each_damage(TEXTS[index as usize]).iter().enumerate() {
            let way = way_of(turn as u64);
            count(numbers, compare_reencode(text, way, ROOM));
            count(numbers, compare_read_back(text, ROOM.work));
            let none = b"s SATISFIABLE\nv 0\n";
            let work = 1_000 + 5 * text.len() + 32_000;
            for carrying in CARRYING {
                count(numbers, carrying.compare(text, b"", 0, none, work, 50_000));
            }
        }
    });
    let numbers = sum(counted);
    expect_numbers(&numbers, &[0, 1, 2, 3, 4, 7, 8, 44, 45]);
}

/// The sizes of each damaged text: what they tell is just enough, and no buffer's number is among the refusals.
#[test]
fn sizes_of_formulas() {
    let counted = over_seeds(0..TEXTS.len() as u64, |index, numbers: &mut Numbers| {
        for (turn, text) in each_damage(TEXTS[index as usize]).iter().enumerate() {
            let way = way_of(turn as u64);
            match compare_sizes(text, way, ROOM.work) {
                Ok(tally) => {
                    count(numbers, 0);
                    expect_exact(text, way, ROOM.work, tally);
                }
                Err(number) => count(numbers, number),
            }
        }
    });
    let numbers = sum(counted);
    expect_numbers(&numbers, &[0, 1, 2, 3, 4, 7, 8]);
    assert!(numbers.keys().all(|number| *number < 10) && numbers[&0] > 3_000);
}

/// Carries an assignment over session F's log, each byte of both damaged in turn.
fn over_damaged(carrying: Carrying, assignment: &[u8]) -> Numbers {
    let read = read_formula(F, &INPUT_LIMITS).unwrap();
    let encoding = run_model(&read, WAYS[2]);
    let log = log_text(&encoding.log);
    let kept = encoding.log.len();
    let (logs, assignments) = (each_damage(&log), each_damage(assignment));
    let both = (logs.len() + assignments.len()) as u64;
    let counted = over_seeds(0..both, |index, numbers: &mut Numbers| {
        let index = index as usize;
        let formula = [F, JOINED_F.as_bytes()][index % 2];
        let (log, assignment) = match logs.get(index) {
            Some(damaged) => (damaged, assignment),
            None => (&log, &assignments[index - logs.len()][..]),
        };
        let number = carrying.compare(formula, log, kept, assignment, 4_000, 100);
        count(numbers, number);
    });
    sum(counted)
}

#[test]
fn logs_and_answers() {
    let answer =
        b"c first\ns SATISFIABLE\r\nv 1 2 3 4 5 \nc between\nv -6 -7\t-8 -9 10 0 \nc last\n";
    let mut numbers = over_damaged(Carrying::Back, answer);
    let (wrong_way, none) = (b"p cnf 1 2\n1 0\n-1 0\n", b"s SATISFIABLE\nv 0");
    count(
        &mut numbers,
        Carrying::Back.compare(wrong_way, b"d 1 0\n", 1, none, 1_000, 100),
    );
    expect_numbers(&numbers, &[0, 31, 32, 33, 34, 41, 42, 43, 44]);
}

#[test]
fn logs_and_plans() {
    let plan = b"c first\ns SATISFIABLE\r\nv -1 -2 \nc between\nv 3\t-4  6 0 \nc last\n";
    let numbers = over_damaged(Carrying::Forward, plan);
    expect_numbers(&numbers, &[0, 31, 32, 34, 41, 42, 43, 45, 46]);
}

#[test]
fn random_bytes() {
    const OFTEN: &[u8] = b"0123456789--  \n\n\t\rcdpsv";
    let numbers = over_seeds(0..12_000, |seed, numbers: &mut Numbers| {
        let mut random = Random::new(seed);
        let mut bytes = |start: &[u8]| {
            let mut text = if random.chance(70) {
                start.to_vec()
            } else {
                Vec::new()
            };
            let all = random.chance(30);
            for _ in 0..random.below(60) {
                text.push(if all {
                    random.below(256) as u8
                } else {
                    *random.one_of(OFTEN)
                });
            }
            text
        };
        let text = bytes(b"p cnf 9 3\n");
        let log = bytes(b"d 1 2 0\n");
        let answer = bytes(b"s SATISFIABLE\nv ");
        let way = way_of(seed);
        count(numbers, compare_reencode(&text, way, ROOM));
        let sized = compare_sizes(&text, way, ROOM.work);
        count(numbers, sized.err().unwrap_or(0));
        count(numbers, compare_read_back(&text, ROOM.work));
        let kept = (seed % 3) as usize;
        for carrying in CARRYING {
            for formula in [F, &text] {
                let number = carrying.compare(formula, &log, kept, &answer, 1_000, 100);
                count(numbers, number);
            }
        }
    });
    expect_numbers(&sum(numbers), &[1, 3, 4, 7, 8, 31, 34, 41, 42]);
}
