//! Carrying last season's plan forward: test, replay, go forwards, test.

use crate::answer::read_answer;
use crate::log_reading::read_kept_lines;
use crate::reading::{read_formula, INPUT_LIMITS};
use crate::texts::Line;
use crate::walk_back::{
    answer_line, highest_allowed, make_first_true, replay, satisfies, workspace_needed, Assignment,
};

/// Goes through the lines, first one first. A deletion changes nothing.
pub fn go_forwards(lines: &[Line], values: &mut Assignment) {
    for line in lines.iter().filter(|line| !line.deletion) {
        make_first_true(&line.literals, values);
    }
}

/// The line for 1..X. Refuses with 1 to 4 or 7 to 9, then 31 or 34, 41 to 43, 11, 45, 32, 46, 14.
pub fn carry_forward(
    formula: &[u8],
    log: &[u8],
    keep: usize,
    plan: &[u8],
    workspace: u64,
    room: usize,
) -> Result<Vec<u8>, u8> {
    let formula = read_formula(formula, &INPUT_LIMITS)?;
    let lines = read_kept_lines(log, keep)?;
    let mut values = read_answer(plan, formula.variables)?;
    if workspace < workspace_needed(&formula, &lines) {
        return Err(11);
    }

    if !satisfies(&values, &formula.clauses) {
        return Err(45);
    }
    let standing = replay(&formula.clauses, &lines)?;
    let highest = highest_allowed(&formula, &lines);
    // New variables start false.
    values.resize(highest as usize + 1, false);
    go_forwards(&lines, &mut values);
    if !satisfies(&values, &standing) {
        return Err(46);
    }
    answer_line(highest, &values, room)
}

#[cfg(test)]
mod tests {
    use super::*;

    const PLENTY: usize = 1 << 30;
    const FORMULA: &str = "p cnf 3 1\n1 2 0\n";

    /// The line that the plan in which these are true gives when all lines are kept.
    fn carried(log: &str, literals: &str) -> Result<String, u8> {
        let plan = format!("s SATISFIABLE\nv {literals} 0\n");
        let keep = log.lines().count();
        let (formula, log) = (FORMULA.as_bytes(), log.as_bytes());
        let line = carry_forward(formula, log, keep, plan.as_bytes(), 1 << 40, PLENTY)?;
        Ok(String::from_utf8(line).expect("in ASCII"))
    }

    #[test]
    fn a_false_added_line_gets_its_first_literal() {
        for (log, line) in [
            ("", "v 1 2 -3 0\n"),
            ("1 4 0\n", "v 1 2 -3 -4 0\n"),
            ("-5 4 0\n", "v 1 2 -3 -4 -5 0\n"),
            ("-1 4 0\n", "v -1 2 -3 -4 0\n"),
            ("4 -1 0\n", "v 1 2 -3 4 0\n"),
            ("5 3 0\n4 -5 0\n", "v 1 2 -3 4 5 0\n"),
            ("4 -5 0\n5 3 0\nd -5 4 0\n", "v 1 2 -3 -4 5 0\n"),
        ] {
            assert_eq!(carried(log, "1 2"), Ok(line.into()), "{log:?}");
        }
    }

    /// The clause 4 is false when it is deleted.
    #[test]
    fn a_deletion_changes_nothing() {
        for (log, line) in [
            ("d 1 2 0\n", Ok("v 1 -2 -3 0\n")),
            ("d 2 1 0\n", Ok("v 1 -2 -3 0\n")),
            ("4 0\n-4 0\n", Err(46)),
            ("4 0\n-4 0\nd 4 0\n", Ok("v 1 -2 -3 -4 0\n")),
            ("4 0\n-4 0\nd -4 0\n", Err(46)),
            ("4 0\n-4 0\nd 4 0\n4 5 0\n", Err(46)),
            ("4 0\n-4 0\nd 4 0\n5 4 0\n", Ok("v 1 -2 -3 -4 5 0\n")),
        ] {
            assert_eq!(carried(log, "1"), line.map(String::from), "{log:?}");
        }
    }

    #[test]
    fn a_line_without_literals_changes_nothing() {
        for (log, line) in [
            ("0\n", Err(46)),
            ("0\nd 0\n", Ok("v -1 2 -3 0\n")),
            ("0\n0\nd 0\n", Err(46)),
            ("0\n4 0\nd 0\n", Ok("v -1 2 -3 4 0\n")),
            ("d 0\n", Err(32)),
        ] {
            assert_eq!(carried(log, "2"), line.map(String::from), "{log:?}");
        }
    }

    /// In this order they are tested.
    const ORDER: [u8; 11] = [4, 31, 34, 41, 42, 43, 11, 45, 32, 46, 14];

    /// What is handed in, and the numbers that are due for it.
    type Part<T> = (T, &'static [u8]);

    const FORMULAS: [Part<&str>; 2] = [(FORMULA, &[]), ("p cnf 3 1\n1 4 0\n", &[4])];

    /// Three lines are kept. X is 4 in each log.
    const LOGS: [Part<&str>; 8] = [
        ("3 0\n4 0\nd 4 0\n", &[]),
        ("4 0\n-4 0\n3 3 0\n", &[31]),
        ("d 4 0\n4 0\n1 2 3 0", &[31]),
        ("4 0\n-4 0\n", &[34]),
        ("d 4 0\n4 0\n", &[34]),
        ("d 4 0\n4 0\n1 2 3 0\n", &[32]),
        ("4 0\n-4 0\n1 2 3 0\n", &[46]),
        ("4 0\n-4 0\nd 3 0\n", &[32, 46]),
    ];

    const PLANS: [Part<&str>; 6] = [
        ("s SATISFIABLE\nv 1 0\n", &[]),
        ("s SATISFIABLE\nv 1\n", &[41]),
        ("s SATISFIABLE\nv 1 4 0\n", &[42]),
        ("s SATISFIABLE\nv 1 -4 0\n", &[42]),
        ("s SATISFIABLE\nv 1 -2 -1 0\n", &[43]),
        ("s SATISFIABLE\nv 3 0\n", &[45]),
    ];

    const WORKSPACES: [Part<u64>; 2] = [(1 << 40, &[]), (0, &[11])];

    const ROOMS: [Part<usize>; 2] = [(PLENTY, &[]), (0, &[14])];

    /// The first of the order that is due for one of the parts.
    fn first_due(due: [&[u8]; 5]) -> Option<u8> {
        let due = due.concat();
        ORDER.into_iter().find(|number| due.contains(number))
    }

    /// The texts with every workspace and room.
    fn check_texts(formula: Part<&str>, log: Part<&str>, plan: Part<&str>) {
        for (workspace, in_workspace) in WORKSPACES {
            for (room, in_room) in ROOMS {
                let texts = [formula, log, plan].map(|(text, _)| text.as_bytes());
                let line = carry_forward(texts[0], texts[1], 3, texts[2], workspace, room);
                let due = [formula.1, log.1, plan.1, in_workspace, in_room];
                assert_eq!(line.err(), first_due(due), "{due:?}");
            }
        }
    }

    #[test]
    fn faults_in_order() {
        for formula in FORMULAS {
            for log in LOGS {
                for plan in PLANS {
                    check_texts(formula, log, plan);
                }
            }
        }
    }
}
