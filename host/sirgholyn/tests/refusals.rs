//! What each number says, the order of the numbers, and rooms that are set.

mod common;

use common::{
    compare_reencode, compare_sizes, run_model, work_for, Carrying, Room, LISTED, PLENTY, WAYS,
};
use model::generator::{clauses_apart, text_of};
use model::reading::{read_formula, INPUT_LIMITS};
use model::sessions::F;
use sirgholyn::{reencode, Error, ReencodeRoom, Refusal};
use std::collections::HashSet;

#[test]
fn each_number_has_a_meaning_and_a_mender() {
    let mender_of = |number| match number {
        1..=9 => "the formula's writer",
        11..=17 => "the caller",
        31..=34 | 46 => "the log's writer",
        44 => "the solver",
        45 => "the planner",
        _ => "the solver or planner",
    };
    let mut meanings = HashSet::from([Refusal(0).meaning()]);
    for number in LISTED {
        let said = Refusal(number).to_string();
        assert!(said.starts_with(&format!("refused {number}: ")));
        assert!(said.ends_with(&format!("; {} can mend it", mender_of(number))));
        assert!(meanings.insert(Refusal(number).meaning()));
    }
}

/// 5 and 6 among them, which were withdrawn.
#[test]
fn other_numbers_are_not_listed() {
    for number in (0..1_000).filter(|number| !LISTED.contains(number)) {
        let said = "a number that is not listed; nobody listed can mend it";
        let said = format!("refused {number}: {said}");
        assert_eq!(Refusal(number).to_string(), said);
    }
}

/// Reencoding with everything wrong, of which one thing after the other is mended.
#[test]
fn the_order_of_reencodings_refusals() {
    let formula = clauses_apart(5, 1_600);
    for way in WAYS {
        let enough = Room::exact(&formula, &run_model(&formula, way.with_step(38)));
        let (mut text, mut step) = (Vec::new(), 0);
        let mut room = Room {
            work: enough.work - 1,
            log: enough.log - 1,
            formula: enough.formula - 1,
            table: enough.table - 1,
        };
        for number in [15, 1, 11, 16, 17, 12, 13] {
            let found = compare_reencode(&text, way.with_step(step), room);
            assert_eq!(found, number, "{way:?}");
            match number {
                15 => step = 39,
                1 => text = text_of(&formula),
                11 => room.work = enough.work,
                16 => step = 38,
                17 => room.table = enough.table,
                12 => room.log = enough.log,
                _ => room.formula = enough.formula,
            }
        }
        assert_eq!(compare_reencode(&text, way.with_step(step), room), 0);
    }
}

/// Carrying forward with everything wrong, of which one thing after the other is mended.
#[test]
fn the_order_of_forward_refusals() {
    let enough = b"v 1 -2 3 0\n".len();
    let (mut text, mut log, mut named) = ("", "3 1 0\n1\n", "1 x");
    let (mut work, mut room) = (0, 0);
    for number in [1, 31, 34, 41, 42, 43, 11, 45, 32, 46, 14] {
        let plan = format!("s SATISFIABLE\nv {named} 0\n");
        let carry = |work, room| {
            let (text, log, plan) = (text.as_bytes(), log.as_bytes(), plan.as_bytes());
            Carrying::Forward.compare(text, log, 2, plan, work, room)
        };
        assert_eq!(carry(work, room), number);
        match number {
            1 => text = "p cnf 2 1\n1 2 0\n",
            31 => log = "3 1 0\n",
            34 => log = "-1 0\nd 2 0\n",
            41 => named = "3 1 1",
            42 => named = "2 -2",
            43 => named = "-2",
            11 => work = PLENTY,
            45 => named = "1",
            32 => log = "-1 0\nd -1 0\n",
            46 => log = "3 -1 0\nd 1 2 0\n",
            _ => room = enough,
        }
    }
    let plan = format!("s SATISFIABLE\nv {named} 0\n");
    let (text, log, plan) = (text.as_bytes(), log.as_bytes(), plan.as_bytes());
    let line = Carrying::Forward.line(text, log, 2, plan, work, room);
    assert_eq!(line.as_deref(), Ok(&b"v 1 -2 3 0\n"[..]));
}

/// Sizes with everything wrong, of which one thing after the other is mended.
#[test]
fn the_order_of_sizes_refusals() {
    let formula = clauses_apart(5, 1_600);
    for way in WAYS {
        let enough = work_for(&formula);
        let (mut text, mut step, mut work) = (Vec::new(), 0, enough - 1);
        for number in [15, 1, 11, 16] {
            let found = compare_sizes(&text, way.with_step(step), work);
            assert_eq!(found, Err(number), "{way:?}");
            match number {
                15 => step = 39,
                1 => text = text_of(&formula),
                11 => work = enough,
                _ => step = 38,
            }
        }
        let found = compare_sizes(&text, way.with_step(step), work);
        assert_eq!(found.map(|tally| tally.highest), Ok(68_784));
    }
}

/// Each room left open, just enough, or one short: of those that are short the first in the order of the numbers decides.
#[test]
fn every_combination_of_rooms() {
    let text = F.as_bytes();
    let work = work_for(&read_formula(text, &INPUT_LIMITS).unwrap());
    for way in WAYS {
        let new = reencode(text, way, ReencodeRoom::default()).unwrap();
        let exact = [work, new.table.len(), new.log.len(), new.formula.len()];
        for combination in 0..81 {
            let kinds = [1, 3, 9, 27].map(|weight| combination / weight % 3);
            let room = |place: usize| match kinds[place] {
                0 => None,
                kind => Some(exact[place] - (kind - 1)),
            };
            let rooms = ReencodeRoom {
                work: room(0),
                table: room(1),
                log: room(2),
                formula: room(3),
            };
            let found = reencode(text, way, rooms);
            match kinds.iter().position(|&kind| kind == 2) {
                None => assert_eq!(found.as_ref(), Ok(&new)),
                Some(place) => {
                    let number = [11, 17, 12, 13][place];
                    assert_eq!(found, Err(Error::Refused(Refusal(number))), "{rooms:?}");
                }
            }
        }
    }
}

/// Whatever room is set, a formula that is refused, or its step, has its own number.
#[test]
fn rooms_that_are_short_and_other_faults() {
    let none = ReencodeRoom {
        work: Some(0),
        log: Some(0),
        formula: Some(0),
        table: Some(0),
    };
    let most = text_of(&clauses_apart(5, 1_600));
    let open = ReencodeRoom { work: None, ..none };
    for (text, step, room, number) in [
        (&b""[..], 0, none, 15),
        (b"", 1, none, 1),
        (b"p cnf 1 1\n1", 1, none, 7),
        (&most, 39, none, 11),
        (&most, 39, open, 16),
        (&most, 38, open, 17),
    ] {
        for way in WAYS {
            let refused = Err(Error::Refused(Refusal(number)));
            assert_eq!(reencode(text, way.with_step(step), room), refused);
        }
    }
}
