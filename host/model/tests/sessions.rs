//! The sessions listed in document 01, two of them as M-100 has them, the example vectors of its readings,
//! the choices with a pure literal of M-112, plans carried forward of M-121, and the short logs of M-130.

use model::generator::{all_but_one, clashing_at_1, forbidding};
use model::reading::{read_formula, INPUT_LIMITS};
use model::sessions::{COPIES, F, JOINED_E, SIX};
use model::texts::{count_true, formula_text};
use model::{
    carry_forward, read_back, reencode, walk_back, Arrangement, Form, Reencoded, Room, Settings,
};
use std::slice::from_ref;

const PLENTY: usize = 1 << 30;
const G_OUT: &str = "p cnf 10 8\n8 -7 0\n9 -8 0\n10 -9 0\n-7 6 0\n7 -8 6 0\n8 -9 6 0\n\
                     9 -10 -6 0\n10 -6 0\n";

fn encode(text: &str, form: Form) -> Reencoded {
    reencode(text.as_bytes(), as_listed(form), Room::enough()).unwrap()
}

fn as_listed(form: Form) -> Settings {
    Settings::new(form, Arrangement::AsListed)
}

fn refusal(text: &str) -> u8 {
    reencode(text.as_bytes(), as_listed(Form::Counter), Room::enough()).unwrap_err()
}

fn expect(text: &str, log: &str, formula: &str) {
    for form in [Form::Counter, Form::Order] {
        let result = encode(text, form);
        assert_eq!(String::from_utf8_lossy(&result.log), log);
        assert_eq!(String::from_utf8_lossy(&result.formula), formula);
        assert_eq!(result.lines, log.lines().count());
        assert_eq!(result.choices, 0);
    }
}

fn walk(formula: &str, log: &[u8], keep: usize, answer: &str) -> Result<String, u8> {
    walk_back(
        formula.as_bytes(),
        log,
        keep,
        answer.as_bytes(),
        1 << 40,
        PLENTY,
    )
    .map(|line| String::from_utf8(line).unwrap())
}

fn carry(formula: &str, log: &str, keep: usize, plan: &str) -> Result<String, u8> {
    let (formula, log, plan) = (formula.as_bytes(), log.as_bytes(), plan.as_bytes());
    let line = carry_forward(formula, log, keep, plan, 1 << 40, PLENTY);
    line.map(|line| String::from_utf8(line).unwrap())
}

#[test]
fn sessions_a_to_e() {
    expect("p cnf 0 0", "", "p cnf 0 0\n");
    expect("p cnf 0 1\n0\n", "", "p cnf 0 1\n0\n");
    expect(
        "p cnf 1 2\n1 0\n-1 0\n",
        "0\nd 1 0\nd -1 0\n",
        "p cnf 1 1\n0\n",
    );
    expect(
        "p cnf 2 2\n1 2 0\n-1 -2 0\n",
        "d 1 2 0\nd -1 -2 0\n",
        "p cnf 2 0\n",
    );
    for e in ["p cnf 3 2\n1 2 0\n-1 3 0\n", JOINED_E] {
        let log = "2 3 0\nd 1 2 0\nd -1 3 0\nd 2 3 0\n";
        expect(e, log, "p cnf 3 0\n");
        for answer in ["s SATISFIABLE\nv -1 -2 -3 0\n", "s SATISFIABLE\nv 0"] {
            assert_eq!(
                walk(e, log.as_bytes(), 4, answer),
                Ok("v -1 2 -3 0\n".into())
            );
        }
    }
}

const F_LOG: &str = "-7 1 0\n7 -1 0\n-8 7 2 0\n8 -7 0\n8 -2 0\n-9 8 3 0\n9 -8 0\n9 -3 0\n\
                     -10 9 4 0\n10 -9 0\n10 -4 0\n-2 -7 0\n-3 -8 0\n-4 -9 0\n-5 -10 0\n10 5 0\n\
                     d 1 2 3 4 5 0\nd -1 -2 0\n";

/// What the log of G has after that of F.
const G_LOG: &str = "-7 6 0\nd -1 6 0\n7 -8 6 0\nd -2 6 0\n8 -9 6 0\nd -3 6 0\n\
                     9 -10 -6 0\nd -4 -6 0\n10 -6 0\nd -5 -6 0\n\
                     d 1 -7 0\nd -1 7 0\nd 2 -8 7 0\nd -2 8 0\nd -2 -7 0\n\
                     d 3 -9 8 0\nd -3 9 0\nd -3 -8 0\nd 4 -10 9 0\nd -4 10 0\nd -4 -9 0\n\
                     d 5 10 0\nd -5 -10 0\n";

#[test]
fn session_f_counter_form() {
    let f = encode(F, Form::Counter);
    assert_eq!((f.choices, f.highest, f.clauses, f.lines), (1, 10, 21, 18));
    assert_eq!(String::from_utf8_lossy(&f.log), F_LOG);
}

#[test]
fn sessions_g_and_h_order_form() {
    let g = encode(F, Form::Order);
    assert_eq!((g.choices, g.highest, g.clauses, g.lines), (1, 10, 8, 41));
    assert_eq!(String::from_utf8_lossy(&g.log), [F_LOG, G_LOG].concat());
    assert_eq!(String::from_utf8_lossy(&g.formula), G_OUT);
    let (variables, clauses) = read_back(&g.formula, 1 << 40).unwrap();
    assert_eq!((variables, clauses.len()), (10, 8));
    assert_eq!(clauses[3], vec![-7, 6]);

    let answer = "s SATISFIABLE\nv 1 2 3 4 5 -6 -7 -8 -9 10 0\n";
    let line = walk(F, &g.log, 41, answer).unwrap();
    assert_eq!(line, "v -1 -2 -3 4 -5 -6 0\n");
}

/// Of the eight plans four satisfy E. The resolvent 2 3 is true in each of them, and nothing changes.
#[test]
fn session_e_carried_forward() {
    let e = "p cnf 3 2\n1 2 0\n-1 3 0\n";
    let log = "2 3 0\nd 1 2 0\nd -1 3 0\nd 2 3 0\n";
    for keep in 0..=4 {
        for line in [
            "v -1 2 -3 0\n",
            "v -1 2 3 0\n",
            "v 1 -2 3 0\n",
            "v 1 2 3 0\n",
        ] {
            let plan = format!("s SATISFIABLE\n{line}");
            assert_eq!(carry(e, log, keep, &plan), Ok(line.into()), "{keep}");
            let back = walk(e, log.as_bytes(), keep, &plan);
            assert_eq!(back, Ok(line.into()), "{keep}");
        }
        for variables in [&[][..], &[3], &[1], &[1, 2]] {
            let plan = answer_with(variables);
            assert_eq!(carry(e, log, keep, &plan), Err(45), "{keep} {plan:?}");
        }
    }
    for keep in [5, 6] {
        assert_eq!(carry(e, log, keep, &answer_with(&[2])), Err(34));
    }
}

/// X after so many lines of the logs of F and G.
fn x_of_g(keep: usize) -> i32 {
    match keep {
        0 => 6,
        1..=2 => 7,
        3..=5 => 8,
        6..=8 => 9,
        _ => 10,
    }
}

/// The line of the variables up to the highest in which these are true.
fn line_with(variables: &[i32], highest: i32) -> String {
    let sign = |v: i32| if variables.contains(&v) { v } else { -v };
    let literals: Vec<i32> = (1..=highest).map(sign).collect();
    format!("v {}", line_of(&literals))
}

/// A literal that a line makes true.
type Change = (usize, i32);

/// The variables that are true in plans for F, and what the lines of G change.
const G_PLANS: [(&[i32], &[Change]); 5] = [
    (&[5], &[]),
    (&[3, 6], &[(8, 9), (10, 10)]),
    (&[4, 5], &[(11, 10), (15, -5)]),
    (&[1, 3, 6], &[(2, 7), (4, 8), (7, 9), (10, 10), (13, -3)]),
    (&[2, 3, 6], &[(5, 8), (7, 9), (10, 10), (13, -3)]),
];

/// The variables that are true after so many lines.
fn true_after(keep: usize, plan: &[i32], changes: &[Change]) -> Vec<i32> {
    let kept = changes.iter().filter(|(line, _)| *line <= keep);
    let made_true: Vec<i32> = kept.map(|(_, literal)| *literal).collect();
    let mut variables = [plan, &made_true].concat();
    variables.retain(|variable| *variable > 0 && !made_true.contains(&-variable));
    variables
}

#[test]
fn session_g_carried_forward() {
    let log = [F_LOG, G_LOG].concat();
    for (plan, changes) in G_PLANS {
        for keep in 0..=41 {
            let expected = true_after(keep, plan, changes);
            let line = carry(F, &log, keep, &answer_with(plan)).unwrap();
            assert_eq!(line, line_with(&expected, x_of_g(keep)), "{keep} {plan:?}");
            let back = walk(F, log.as_bytes(), keep, &format!("s SATISFIABLE\n{line}"));
            assert_eq!(back, Ok(line_with(&expected, 6)), "{keep} {plan:?}");
        }
    }
}

/// Each body after the header is refused with its number.
fn expect_refusals(header: &str, cases: &[(&str, u8)]) {
    for (body, number) in cases {
        assert_eq!(refusal(&format!("{header}\n{body}\n")), *number, "{body}");
    }
}

#[test]
fn the_four_refusals() {
    let cases = [("2 0", 4), ("-0", 3), ("1", 7), ("1 0 1 0", 8)];
    expect_refusals("p cnf 1 1", &cases);
}

#[test]
fn the_two_sessions_let_in() {
    let (repeated, opposed) = ("p cnf 1 1\n1 1 0\n", "p cnf 1 1\n1 -1 0\n");
    expect(repeated, "d 1 0\n", "p cnf 1 0\n");
    expect(opposed, "", "p cnf 1 0\n");
    for (text, clauses) in [(repeated, vec![vec![1]]), (opposed, vec![])] {
        assert_eq!(read_back(text.as_bytes(), 1 << 40), Ok((1, clauses)));
    }
    let answer = "s SATISFIABLE\nv 0\n";
    assert_eq!(walk(repeated, b"", 0, answer), Err(44));
    assert_eq!(walk(repeated, b"d 1 0\n", 1, answer), Ok("v 1 0\n".into()));
    assert_eq!(walk(opposed, b"", 0, answer), Ok("v -1 0\n".into()));
}

fn line_of(literals: &[i32]) -> String {
    let words: String = literals
        .iter()
        .map(|literal| format!("{literal} "))
        .collect();
    words + "0\n"
}

fn written(variables: i32, clauses: &[Vec<i32>]) -> String {
    String::from_utf8(formula_text(variables, clauses)).expect("in ASCII")
}

fn with_forbidden(clauses: &[Vec<i32>], forbidden: &[i32]) -> String {
    let variables = clauses.iter().flatten().map(|literal| literal.abs());
    let highest = variables.max().unwrap_or(0);
    written(highest, &[clauses, &forbidding(forbidden)].concat())
}

/// A clause of the given size, its literals' negations in clauses that are not unique.
fn one_choice(size: usize) -> String {
    let clause: Vec<i32> = (1..=size as i32).collect();
    with_forbidden(from_ref(&clause), &clause)
}

#[test]
fn sizes_4_5_64_65() {
    for size in [4, 65] {
        let text = one_choice(size);
        let result = encode(&text, Form::Counter);
        assert_eq!((result.choices, result.lines), (0, 0));
        assert_eq!(String::from_utf8_lossy(&result.formula), text);
    }
    for size in [5, 64] {
        let result = encode(&one_choice(size), Form::Counter);
        assert_eq!(result.choices, 1);
        assert_eq!(result.highest as usize, 2 * size - 1);
        assert_eq!(result.clauses, 2 * size + 4 * (size - 1));
    }
}

/// Choices, H, M and log lines.
type Tally = (usize, usize, usize, usize);

fn tally_of(text: &str, form: Form) -> Tally {
    let result = encode(text, form);
    let highest = result.highest as usize;
    (result.choices, highest, result.clauses, result.lines)
}

/// The tally in counter form and in order form.
fn tallies_of(text: &str) -> [Tally; 2] {
    [Form::Counter, Form::Order].map(|form| tally_of(text, form))
}

/// The tallies of V variables, lines before the choice, a choice of k literals and clauses of one of its negated
/// literals, none of which is a pair. Counter form adds 4(k-1) clauses and deletes the choice. Order form replaces
/// each of the other clauses in two lines. Then it deletes the clauses with li, k of them, with -li si and with -li -s(i-1), k-1 of each; the k-2 clauses
/// si -s(i-1) stay.
fn tallies_of_choice(variables: usize, before: usize, k: usize, others: usize) -> [Tally; 2] {
    let highest = variables + k - 1;
    let lines = before + 4 * (k - 1) + 1;
    [
        (1, highest, others + 4 * (k - 1), lines),
        (1, highest, others + k - 2, lines + 2 * others + 3 * k - 2),
    ]
}

/// Counter form writes 20 counter clauses and the deletion of the choice. Order form replaces nothing and deletes
/// 6 + 5 + 5 clauses.
#[test]
fn six_literals_that_nothing_forbids() {
    let [counter, order] = tallies_of(SIX);
    assert_eq!(counter, (1, 11, 20, 20 + 1));
    assert_eq!(order, (1, 11, 4, 21 + 16));
    assert_eq!([counter, order], tallies_of_choice(6, 0, 6, 0));
    let formula = encode(SIX, Form::Order).formula;
    assert_eq!(
        String::from_utf8_lossy(&formula),
        "p cnf 11 4\n8 -7 0\n9 -8 0\n10 -9 0\n11 -10 0\n"
    );
}

/// All sets of two of the literals.
fn twos(literals: &[i32]) -> Vec<[i32; 2]> {
    let mut twos = Vec::new();
    for (place, &one) in literals.iter().enumerate() {
        twos.extend(literals[place + 1..].iter().map(|&other| [one, other]));
    }
    twos
}

/// The answer in which these variables are true.
fn answer_with(variables: &[i32]) -> String {
    format!("s SATISFIABLE\nv {}", line_of(variables))
}

/// The counter variables that are true if the chosen literal, from 1 to k, is the only one: s(i) for i from the
/// chosen on.
fn steps_of(chosen: usize, first_step: i32, k: usize) -> Vec<i32> {
    (chosen..k).map(|i| first_step + i as i32 - 1).collect()
}

#[test]
fn six_literals_walked_back() {
    let [counter, order] = [Form::Counter, Form::Order].map(|form| encode(SIX, form));
    for chosen in 1..=6 {
        let steps = steps_of(chosen as usize, 7, 6);
        let one = (1..=6).map(|l| if l == chosen { l } else { -l });
        let expected = format!("v {}", line_of(&one.collect::<Vec<i32>>()));
        for two in twos(&[1, 2, 3, 4, 5, 6]) {
            let answer = answer_with(&[&two[..], &steps].concat());
            let walked = walk(SIX, &order.log, order.lines, &answer);
            assert_eq!(walked.as_ref(), Ok(&expected), "{answer:?}");
            let walked = walk(SIX, &counter.log, counter.lines, &answer);
            assert_eq!(walked, Err(44), "{answer:?}");
        }
        let answer = answer_with(&[&[chosen][..], &steps].concat());
        let walked = walk(SIX, &counter.log, counter.lines, &answer);
        assert_eq!(walked.as_ref(), Ok(&expected), "{answer:?}");
    }
}

/// Clauses of the size, in each the variables from 1 on: positive, negative, and both by turns.
fn clauses_of(size: usize) -> [Vec<i32>; 3] {
    let by_turns = |variable: i32| {
        if variable % 2 == 0 {
            variable
        } else {
            -variable
        }
    };
    let variables = 1..=size as i32;
    [
        variables.clone().collect(),
        variables.clone().map(|variable| -variable).collect(),
        variables.map(by_turns).collect(),
    ]
}

/// The deletion of the clause for its first literal that is not forbidden.
fn pure_deletion(clause: &[i32], forbidden: &[i32]) -> String {
    let mut literals = clause.to_vec();
    let pure = literals.iter().position(|l| !forbidden.contains(l));
    literals[..=pure.unwrap()].rotate_right(1);
    format!("d {}", line_of(&literals))
}

#[test]
fn sizes_with_a_pure_literal() {
    for size in [1, 2, 3, 4, 5, 6, 63, 64, 65, 66] {
        for clause in clauses_of(size) {
            for forbidden in all_but_one(&clause) {
                let text = with_forbidden(from_ref(&clause), &forbidden);
                if (5..=64).contains(&size) {
                    let expected = tallies_of_choice(size, 0, size, 2 * forbidden.len());
                    assert_eq!(tallies_of(&text), expected, "{text}");
                } else {
                    let out = written(size as i32, &forbidding(&forbidden));
                    expect(&text, &pure_deletion(&clause, &forbidden), &out);
                }
            }
        }
    }
}

/// The resolvent's addition and two deletions, then a choice.
#[test]
fn clashes_that_join_a_choice_with_a_pure_literal() {
    for (a, b) in [(3, 4), (1, 6), (6, 1), (5, 2), (33, 33), (64, 2), (65, 1)] {
        let (variables, size) = ((a + b - 1) as usize, (a + b - 2) as usize);
        let last = a + b - 1;
        for forbidden in [vec![], (2..last).collect(), (3..=last).collect()] {
            let text = with_forbidden(&clashing_at_1(a, b), &forbidden);
            let expected = tallies_of_choice(variables, 3, size, 2 * forbidden.len());
            assert_eq!(tallies_of(&text), expected, "{text}");
        }
    }
}

/// The sizes of the clauses that clash do not count, only the resolvent's.
#[test]
fn clashes_that_join_a_clause_with_a_pure_literal() {
    for (a, b) in [(3, 3), (5, 1), (2, 2), (33, 34), (64, 3), (65, 2), (5, 62)] {
        let [one, other] = clashing_at_1(a, b);
        let resolvent = [&one[1..], &other[1..]].concat();
        let last = a + b - 1;
        for forbidden in [
            vec![],
            (3..=last).collect(),
            (2..last).collect::<Vec<i32>>(),
        ] {
            let text = with_forbidden(&[one.clone(), other.clone()], &forbidden);
            let log = [
                line_of(&resolvent),
                format!("d {}d {}", line_of(&one), line_of(&other)),
                pure_deletion(&resolvent, &forbidden),
            ];
            let out = written(last, &forbidding(&forbidden));
            expect(&text, &log.concat(), &out);
        }
    }
    let double = "p cnf 8 2\n1 2 3 4 5 0\n-1 -2 6 7 8 0\n";
    let log = "d 1 2 3 4 5 0\nd -1 -2 6 7 8 0\n";
    expect(double, log, "p cnf 8 0\n");
}

/// 3 and 4 literals that clash, with the resolvent 2 3 4 5 6.
#[test]
fn a_joined_choice_walked_back() {
    let clauses = clashing_at_1(3, 4);
    let text = with_forbidden(&clauses, &[]);
    let order = encode(&text, Form::Order);
    for chosen in 1..=5 {
        let steps = steps_of(chosen, 7, 5);
        for two in twos(&[2, 3, 4, 5, 6]) {
            for clashing in [&[][..], &[1]] {
                let answer = answer_with(&[clashing, &two, &steps].concat());
                let line = walk(&text, &order.log, order.lines, &answer).unwrap();
                let counts = clauses.each_ref().map(|clause| count_true(&line, clause));
                assert_eq!(counts, [1, 1], "{answer:?}");
                assert_eq!(count_true(&line, &[chosen as i32 + 1]), 1, "{answer:?}");
            }
        }
    }
}

/// 1..5 and 6..10 with the given links; each negated literal stands twice.
fn two_choices(links: &[&str]) -> String {
    let mut text = format!("p cnf 10 {}\n", 22 + links.len());
    text += "1 2 3 4 5 0\n6 7 8 9 10 0\n";
    for link in links {
        text += &format!("{link} 0\n");
    }
    for literal in 1..=10 {
        text += &format!("-{literal} 0\n-{literal} 0\n");
    }
    text
}

fn log_with(arrangement: Arrangement, form: Form, text: &str) -> String {
    let settings = Settings::new(form, arrangement);
    let result = reencode(text.as_bytes(), settings, Room::enough()).unwrap();
    assert_eq!(result.choices, 2);
    String::from_utf8(result.log).unwrap()
}

#[test]
fn alignment_example() {
    let text = two_choices(&["-1 -8", "-2 -6"]);
    for form in [Form::Counter, Form::Order] {
        let plain = log_with(Arrangement::AsListed, form, &text);
        assert!(plain.contains("\nd 1 2 3 4 5 0\n"));
        assert!(plain.contains("\nd 6 7 8 9 10 0\n"));
        let aligned = log_with(Arrangement::Alignment, form, &text);
        assert!(aligned.contains("\nd 1 2 3 4 5 0\n"));
        assert!(aligned.contains("\nd 8 6 7 9 10 0\n"));
    }
}

/// Each link stands twice, and nothing else is forbidden.
#[test]
fn alignment_of_choices_with_pure_literals() {
    let text = "p cnf 10 6\n1 2 3 4 5 0\n6 7 8 9 10 0\n-1 -8 0\n-1 -8 0\n-2 -6 0\n-6 -2 0\n";
    for form in [Form::Counter, Form::Order] {
        let plain = log_with(Arrangement::AsListed, form, text);
        assert!(plain.contains("\nd 6 7 8 9 10 0\n"));
        let aligned = log_with(Arrangement::Alignment, form, text);
        assert!(aligned.contains("\nd 8 6 7 9 10 0\n"));
    }
}

#[test]
fn unalignable_choices_keep_their_orders() {
    let text = two_choices(&["-1 -8", "-8 -2", "-6 -5"]);
    for form in [Form::Counter, Form::Order] {
        assert_eq!(
            log_with(Arrangement::AsListed, form, &text),
            log_with(Arrangement::Alignment, form, &text)
        );
    }
}

#[test]
fn copies_of_pairs_are_all_deleted() {
    let result = encode(COPIES, Form::Counter);
    assert_eq!((result.lines, result.log.len()), (21, 175));
    assert_eq!(
        String::from_utf8_lossy(&result.log),
        "-6 1 0\n6 -1 0\n-7 6 2 0\n7 -6 0\n7 -2 0\n-8 7 3 0\n8 -7 0\n8 -3 0\n-9 8 4 0\n9 -8 0\n9 -4 0\n\
         -2 -6 0\n-3 -7 0\n-4 -8 0\n-5 -9 0\n9 5 0\n\
         d 1 2 3 4 5 0\nd -1 -2 0\nd -1 -2 0\nd -1 -3 0\nd -1 -3 0\n"
    );
}

#[test]
fn short_workspace_and_buffers_of_reencoding() {
    let needed = 40 * 17 + 4 * 7 + 12 * 6 + 8_192;
    for form in [Form::Counter, Form::Order] {
        let whole = encode(F, form);
        let (log, formula) = (whole.log.len(), whole.formula.len());
        let call = |workspace, log, formula| {
            let room = Room {
                workspace,
                log,
                formula,
                table: 1,
            };
            reencode(F.as_bytes(), as_listed(form), room)
        };
        assert_eq!(call(needed, log, formula), Ok(whole));
        assert_eq!(call(needed - 1, log - 1, formula - 1), Err(11));
        assert_eq!(call(needed, log - 1, formula - 1), Err(12));
        assert_eq!(call(needed, log, formula - 1), Err(13));
    }
    let g = encode(F, Form::Order);
    let needed = 40 * 19 + 4 * 8 + 12 * 10 + 8_192;
    assert!(read_back(&g.formula, needed).is_ok());
    assert_eq!(read_back(&g.formula, needed - 1), Err(11));
}

/// How many numbers the kept lines have, zeros counted.
fn numbers_in(log: &str, keep: usize) -> u64 {
    let words = log.lines().take(keep).flat_map(str::split_whitespace);
    words.filter(|word| *word != "d").count() as u64
}

#[test]
fn short_workspace_and_buffer_of_walk_back() {
    let g = encode(F, Form::Order);
    let answer = b"s SATISFIABLE\nv 1 2 3 4 5 -6 -7 -8 -9 10 0\n";
    let log_numbers = numbers_in(&String::from_utf8_lossy(&g.log), 41);
    let needed = 4 * (17 + 7 + log_numbers) + 4 * 10 + 64;
    let line = "v -1 -2 -3 4 -5 -6 0\n";
    let call = |workspace, room| walk_back(F.as_bytes(), &g.log, 41, answer, workspace, room);
    assert_eq!(call(needed, line.len()), Ok(line.as_bytes().to_vec()));
    assert_eq!(call(needed - 1, line.len() - 1), Err(11));
    assert_eq!(call(needed, line.len() - 1), Err(14));
}

#[test]
fn short_workspace_and_buffer_of_carrying_forward() {
    let log = [F_LOG, G_LOG].concat();
    let plan = answer_with(&[3, 6]);
    for keep in 0..=41 {
        let line = carry(F, &log, keep, &plan).unwrap();
        let x = x_of_g(keep) as u64;
        let needed = 4 * (17 + 7 + numbers_in(&log, keep)) + 4 * x + 64;
        let call = |workspace, room| {
            let (formula, log, plan) = (F.as_bytes(), log.as_bytes(), plan.as_bytes());
            carry_forward(formula, log, keep, plan, workspace, room)
        };
        let whole = Ok(line.clone().into_bytes());
        assert_eq!(call(needed, line.len()), whole, "{keep}");
        assert_eq!(call(needed - 1, line.len() - 1), Err(11), "{keep}");
        assert_eq!(call(needed, line.len() - 1), Err(14), "{keep}");
    }
}

#[test]
fn headers() {
    for text in [
        "",
        "p cnf 1",
        "p cnf 0 0 ",
        "p cnf  0 0",
        " p cnf 0 0",
        "\np cnf 0 0",
        "p cnf 0 0\r",
        "p cnf 0 0\r\r\n",
        "p cnf -0 0",
        "p cnf 00 0",
        "p cnf 8001 x",
        "p cnf 8001 1 ",
        "p cnf -1 0",
        "c only",
        "c only\n",
        "c a\rp cnf 0 0\n",
        "p cnf 0\t0",
        "P cnf 0 0",
    ] {
        assert_eq!(refusal(text), 1, "{text:?}");
    }
    for text in [
        "p cnf 8001 0",
        "p cnf 0 20001",
        "p cnf 1000000000000000000000000000000 0",
    ] {
        assert_eq!(refusal(text), 2, "{text:?}");
    }
    for text in [
        "p cnf 0 0\r\n",
        "c\np cnf 0 0\n \t\r\n",
        "c x\r\ncc\np cnf 0 0\n",
        "c\np cnf 8000 0",
    ] {
        assert_eq!(encode(text, Form::Order).lines, 0, "{text:?}");
    }
}

#[test]
fn words() {
    let cases = [
        ("x", 3),
        ("1 0 x", 8),
        ("c", 3),
        ("01 0", 3),
        ("+1 0", 3),
        ("- 0", 3),
        ("1\u{c}0", 3),
        ("1000000000000000000000000000000 0", 4),
        ("-2 0", 4),
        ("", 8),
        ("1 0 0", 8),
    ];
    expect_refusals("p cnf 1 1", &cases);
}

#[test]
fn repeats_and_opposed_literals() {
    let cases: [(&str, &[&[i32]], usize); 10] = [
        ("1 1 0", &[&[1]], 0),
        ("3 1 3 2 1 1 0", &[&[3, 1, 2]], 0),
        ("-2 1 -2 0", &[&[-2, 1]], 0),
        ("1 -1 0", &[], 1),
        ("1 -1 1 0", &[], 1),
        ("-2 -2 1 3 2 0", &[], 1),
        ("1 2 3 -2 -1 0", &[], 1),
        ("1 0 1 0 -1 0", &[&[1], &[1], &[-1]], 0),
        ("3 -3 0 0 2 2 0 0", &[&[], &[2], &[]], 1),
        ("1 1 0 2 -2 0 -1 2 -1 0 3 -3 3 0", &[&[1], &[-1, 2]], 2),
    ];
    for (body, clauses, left_out) in cases {
        let text = format!("p cnf 3 {}\n{body}\n", clauses.len() + left_out);
        let read = read_formula(text.as_bytes(), &INPUT_LIMITS).unwrap();
        let clauses: Vec<Vec<i32>> = clauses.iter().map(|clause| clause.to_vec()).collect();
        assert_eq!((read.clauses, read.left_out), (clauses, left_out), "{body}");
    }
}

#[test]
fn refusals_with_repeats_and_opposed_literals() {
    let in_the_last_clause = [
        ("1 1 x 0", 3),
        ("1 -1 x 0", 3),
        ("1 -1 -0", 3),
        ("1 1 2 0", 4),
        ("1 -1 -2 0", 4),
        ("1 -1 2 x", 4),
        ("1 1", 7),
        ("1 -1", 7),
        ("1 -1 1", 7),
        ("1 1 0 1", 8),
        ("1 -1 0 1 0", 8),
        ("1 -1 0 0", 8),
        ("1 -1 0 x", 8),
    ];
    expect_refusals("p cnf 1 1", &in_the_last_clause);
    let in_the_first_clause = [
        ("1 -1 0", 8),
        ("1 1 0", 8),
        ("1 -1 x 0 0", 3),
        ("1 -1 0 x", 3),
        ("1 -1 0 2 0", 4),
        ("1 -1 0 1", 7),
        ("1 -1 0 -1 1 0 0", 8),
    ];
    expect_refusals("p cnf 1 2", &in_the_first_clause);
}

#[test]
fn log_lines_keep_their_strictness() {
    for (log, number) in [
        ("d 1 1 2 0\n", 31),
        ("d 3 -3 0\n", 31),
        ("d 3 0\n", 32),
        ("d 2 1 0\nd 1 2 0\n", 32),
    ] {
        let kept = log.lines().count();
        let walked = walk(JOINED_E, log.as_bytes(), kept, "s SATISFIABLE\nv 0\n");
        assert_eq!(walked, Err(number), "{log:?}");
    }
}

/// L 4, C 3; without the clause left out, 6 numbers follow the header.
#[test]
fn workspace_of_session_e_joined() {
    let text = JOINED_E.as_bytes();
    let needed = 40 * 4 + 4 * 3 + 12 * 3 + 8_192;
    let encode = |workspace| {
        let room = Room {
            workspace,
            ..Room::enough()
        };
        reencode(text, as_listed(Form::Counter), room)
    };
    assert_eq!(encode(needed), Ok(encode(1 << 40).unwrap()));
    assert_eq!(encode(needed - 1), Err(11));
    let clauses = vec![vec![1, 2], vec![-1, 3]];
    assert_eq!(read_back(text, needed), Ok((3, clauses)));
    assert_eq!(read_back(text, needed - 1), Err(11));

    let needed = 4 * (6 + 3) + 4 * 3 + 64;
    let (log, answer) = (b"d 2 1 0\n", b"s SATISFIABLE\nv 0\n");
    let call = |workspace| walk_back(text, log, 1, answer, workspace, PLENTY);
    assert_eq!(call(needed), Ok(b"v -1 2 -3 0\n".to_vec()));
    assert_eq!(call(needed - 1), Err(11));
    let plan = b"s SATISFIABLE\nv 2 0\n";
    let call = |workspace| carry_forward(text, log, 1, plan, workspace, PLENTY);
    assert_eq!(call(needed), Ok(b"v -1 2 -3 0\n".to_vec()));
    assert_eq!(call(needed - 1), Err(11));
}

#[test]
fn damaged_logs() {
    let formula = "p cnf 2 1\n1 2 0\n";
    let answer = "s SATISFIABLE\nv 1 0\n";
    let cases: [(&str, usize, u8); 20] = [
        ("", 1, 34),
        ("0\n", 2, 34),
        ("1 0", 1, 31),
        ("1 0\r\n", 1, 31),
        ("1  0\n", 1, 31),
        (" 1 0\n", 1, 31),
        ("1 0 \n", 1, 31),
        ("1\n", 1, 31),
        ("\n", 1, 31),
        ("d\n", 1, 31),
        ("d1 0\n", 1, 31),
        ("1 1 0\n", 1, 31),
        ("1 -1 0\n", 1, 31),
        ("70001 0\n", 1, 31),
        ("1 0 2 0\n", 1, 31),
        ("c\n", 1, 31),
        ("1 0\nd 3 0\n", 2, 32),
        ("d 0\n", 1, 32),
        ("0\n", 1, 44),
        ("d 1 2 0\nd 1 2 0\n", 2, 32),
    ];
    for (log, keep, number) in cases {
        let result = walk(formula, log.as_bytes(), keep, answer);
        assert_eq!(result, Err(number), "{log:?}");
        let number = if number == 44 { 46 } else { number };
        assert_eq!(carry(formula, log, keep, answer), Err(number), "{log:?}");
    }
    assert_eq!(
        carry(formula, "rubbish", 0, answer),
        Ok("v 1 -2 0\n".into())
    );
    assert_eq!(
        walk(formula, b"rubbish", 0, answer),
        Ok("v 1 -2 0\n".into())
    );
    assert_eq!(
        walk(formula, b"d 2 1 0\nrubbish", 1, "s SATISFIABLE\nv 0"),
        Ok("v -1 2 0\n".into())
    );
    let second = "p cnf 1 2\n1 0\n-1 0\n";
    assert_eq!(walk(second, b"d 1 0\n", 1, "s SATISFIABLE\nv 0"), Err(33));
}

#[test]
fn damaged_answers() {
    let formula = "p cnf 2 1\n1 2 0\n";
    let good = [
        "s SATISFIABLE\nv 1 0",
        "s SATISFIABLE\r\nv 1 0\r\n",
        "c\ns SATISFIABLE\nc\nv \nv  1\t\nv\u{20}\t0 \nc after",
        "s SATISFIABLE\nv 1\nc\rx\nv 0\n",
    ];
    for answer in good {
        let result = walk(formula, b"", 0, answer);
        assert_eq!(result, Ok("v 1 -2 0\n".into()), "{answer:?}");
        assert_eq!(carry(formula, "", 0, answer), result, "{answer:?}");
    }
    let bad = [
        ("", 41),
        ("s SATISFIABLE\n", 41),
        ("s SATISFIABLE\nv 1\n", 41),
        ("s UNSATISFIABLE\nv 1 0\n", 41),
        ("s SATISFIABLE \nv 1 0\n", 41),
        ("v 1 0\n", 41),
        ("s SATISFIABLE\ns SATISFIABLE\nv 1 0\n", 41),
        ("s SATISFIABLE\nv\nv 1 0\n", 41),
        ("s SATISFIABLE\nv\t1 0\n", 41),
        ("s SATISFIABLE\nv 1 0\n\n", 41),
        ("s SATISFIABLE\n\nv 1 0\n", 41),
        ("s SATISFIABLE\nv 1 0\nv \n", 41),
        ("s SATISFIABLE\nv 1 0 0\n", 41),
        ("s SATISFIABLE\nv 1 0\r", 41),
        ("s SATISFIABLE\nv 1 \rx 0\n", 41),
        ("s SATISFIABLE\nv x 3 0\n", 41),
        ("s SATISFIABLE\nv 3 x 0\n", 42),
        ("s SATISFIABLE\nv 1 -1 3\n", 43),
        ("s SATISFIABLE\nv 1 3 1\n", 42),
        ("s SATISFIABLE\nv -1 0\n", 44),
    ];
    for (answer, number) in bad {
        assert_eq!(walk(formula, b"", 0, answer), Err(number), "{answer:?}");
        let number = if number == 44 { 45 } else { number };
        assert_eq!(carry(formula, "", 0, answer), Err(number), "{answer:?}");
        // 3 is above V, though not above X.
        let forward = carry(formula, "3 0\n", 1, answer);
        assert_eq!(forward, Err(number), "{answer:?}");
    }
}
