//! M-126: sizes before the run are those of the run, and the refusals are the run's, save 12, 13 and 17.

use model::encoding::Encoding;
use model::generator::{
    clauses_apart, damage, largest_with, many_choices, noise, planned, text_of, varied, Joined,
    Random,
};
use model::reading::{read_formula, Formula, INPUT_LIMITS};
use model::sessions::{F, JOINED_E};
use model::texts::formula_text;
use model::valleys::Valley;
use model::{reencode, sizes, Arrangement, Form, Reencoded, Room, Settings, Sizes};
use std::collections::BTreeMap;

const FORMS: [Form; 2] = [Form::Counter, Form::Order];
const ARRANGEMENTS: [Arrangement; 2] = [Arrangement::AsListed, Arrangement::Alignment];

/// What is handed in.
#[derive(Debug, Clone)]
struct Call {
    text: Vec<u8>,
    settings: Settings,
    workspace: u64,
}

impl Call {
    /// With enough workspace, as listed.
    fn new(text: &[u8], form: Form, step: u32) -> Call {
        Call {
            text: text.to_vec(),
            settings: Settings {
                step,
                ..Settings::new(form, Arrangement::AsListed)
            },
            workspace: 1 << 40,
        }
    }

    fn sizes(&self) -> Result<Sizes, u8> {
        sizes(&self.text, self.settings, self.workspace)
    }

    /// The run with the same workspace.
    fn reencode(&self, room: Room) -> Result<Reencoded, u8> {
        let workspace = self.workspace;
        reencode(&self.text, self.settings, Room { workspace, ..room })
    }

    /// The same with the choices as listed.
    fn as_listed(&self) -> Call {
        let mut call = self.clone();
        call.settings.arrangement = Arrangement::AsListed;
        call
    }
}

/// The room that the sizes tell, less so many records, bytes of the log and bytes of the formula.
fn room_less(sizes: Sizes, [table, log, formula]: [usize; 3]) -> Option<Room> {
    Some(Room {
        table: sizes.choices.checked_sub(table)?,
        log: sizes.log_bytes.checked_sub(log)?,
        formula: sizes.formula_bytes.checked_sub(formula)?,
        ..Room::enough()
    })
}

/// What is taken off, and the number that is due then.
const SHORT: [([usize; 3], u8); 7] = [
    ([0, 0, 1], 13),
    ([0, 1, 0], 12),
    ([0, 1, 1], 12),
    ([1, 0, 0], 17),
    ([1, 0, 1], 17),
    ([1, 1, 0], 17),
    ([1, 1, 1], 17),
];

/// The lines and the header as the texts have them.
fn expect_texts(whole: &Reencoded) {
    let sizes = whole.sizes();
    let lines = |text: &[u8]| text.iter().filter(|&&byte| byte == b'\n').count();
    assert_eq!(lines(&whole.log), sizes.lines);
    assert_eq!(lines(&whole.formula), sizes.clauses + 1);
    let header = format!("p cnf {} {}\n", sizes.highest, sizes.clauses);
    assert!(whole.formula.starts_with(header.as_bytes()));
}

/// How often the cases occurred.
#[derive(Default)]
struct Occurred {
    /// The refusals, and 0 for sizes that are given.
    numbers: BTreeMap<u8, usize>,
    /// Runs with just the room that the sizes tell, and with less.
    rooms: BTreeMap<[usize; 3], usize>,
    cases: BTreeMap<&'static str, usize>,
}

impl Occurred {
    /// The sizes are the run's, or the number is.
    fn check(&mut self, call: &Call) {
        let given = call.sizes();
        *self.numbers.entry(given.err().unwrap_or(0)).or_default() += 1;
        match call.reencode(Room::enough()) {
            Ok(whole) => {
                assert_eq!(given, Ok(whole.sizes()), "{call:?}");
                expect_texts(&whole);
                self.check_rooms(call, &whole);
                self.count(call, whole.sizes());
            }
            Err(number) => assert_eq!(given, Err(number), "{call:?}"),
        }
    }

    /// The run with just this room is the same, and one with less, where there is less to have, is refused.
    fn check_rooms(&mut self, call: &Call, whole: &Reencoded) {
        let exact = room_less(whole.sizes(), [0; 3]).expect("nothing is taken off");
        assert_eq!(call.reencode(exact).as_ref(), Ok(whole), "{call:?}");
        *self.rooms.entry([0; 3]).or_default() += 1;
        for (less, due) in SHORT {
            if let Some(room) = room_less(whole.sizes(), less) {
                let refused = call.reencode(room).err();
                assert_eq!(refused, Some(due), "{less:?} {call:?}");
                *self.rooms.entry(less).or_default() += 1;
            }
        }
    }

    fn count(&mut self, call: &Call, sizes: Sizes) {
        let formula = read_formula(&call.text, &INPUT_LIMITS).expect("its sizes are given");
        let run = Encoding::run(&formula, call.settings);
        assert_eq!(sizes.choices == 0, sizes.highest == formula.variables);
        let given = Given {
            call,
            formula,
            run,
            sizes,
        };
        for (what, occurs) in CASES {
            *self.cases.entry(what).or_default() += usize::from(occurs(&given));
        }
    }

    /// These cases occurred at least so often, and so did all rooms.
    fn expect(&self, whats: &[&str], least: usize) {
        let (numbers, rooms, cases) = (&self.numbers, &self.rooms, &self.cases);
        println!("{numbers:?}\n{rooms:?}\n{cases:#?}");
        for what in whats {
            assert!(cases[what] >= least, "{what}");
        }
        assert_eq!(rooms.len(), 1 + SHORT.len());
        assert!(rooms.values().all(|&times| times >= least));
    }
}

/// A call whose sizes are given, and its run.
struct Given<'a> {
    call: &'a Call,
    formula: Formula,
    run: Encoding,
    sizes: Sizes,
}

impl Given<'_> {
    fn is_in(&self, form: Form) -> bool {
        self.call.settings.form == form
    }

    /// The numbers above V that the run uses.
    fn new_variables(&self) -> usize {
        let records = self.run.table.iter();
        records.map(|record| record.length - 1).sum()
    }

    /// The numbers from V + 1 to H.
    fn above_variables(&self) -> usize {
        (self.sizes.highest - self.formula.variables) as usize
    }
}

fn length_of(number: i32) -> usize {
    number.to_string().len()
}

/// A case, and where it occurs.
type Case = (&'static str, fn(&Given) -> bool);

const CASES: [Case; 23] = [
    ("counter form", |given| given.is_in(Form::Counter)),
    ("order form", |given| given.is_in(Form::Order)),
    ("counter form, choices", |given| {
        given.is_in(Form::Counter) && given.sizes.choices > 0
    }),
    ("order form, choices", |given| {
        given.is_in(Form::Order) && given.sizes.choices > 0
    }),
    ("alignment", |given| {
        given.call.settings.arrangement == Arrangement::Alignment
    }),
    ("alignment gives other sizes", |given| {
        given.call.as_listed().sizes() != Ok(given.sizes)
    }),
    ("alignment gives another log", |given| {
        let settings = given.call.as_listed().settings;
        Encoding::run(&given.formula, settings).log != given.run.log
    }),
    ("several choices", |given| given.sizes.choices > 1),
    ("a choice of 64", |given| {
        given.run.table.iter().any(|record| record.length == 64)
    }),
    ("skipped numbers", |given| {
        given.above_variables() > given.new_variables()
    }),
    ("no choice, step above 1", |given| {
        given.sizes.choices == 0 && given.call.settings.step > 1
    }),
    ("no choice, lines", |given| {
        given.sizes.choices == 0 && given.sizes.lines > 0
    }),
    ("no line", |given| given.sizes.lines == 0),
    ("no line, clauses", |given| {
        given.sizes.lines == 0 && given.sizes.clauses > 0
    }),
    ("no clause left", |given| given.sizes.clauses == 0),
    ("no clause left of several", |given| {
        given.sizes.clauses == 0 && given.formula.clauses.len() > 1
    }),
    ("V is 0", |given| given.formula.variables == 0),
    ("V is 0, clauses", |given| {
        given.formula.variables == 0 && given.sizes.clauses > 0
    }),
    ("an empty clause stands", |given| {
        given.run.standing.clauses().iter().any(Vec::is_empty)
    }),
    ("clauses left out", |given| given.formula.left_out > 0),
    ("H longer than V", |given| {
        length_of(given.sizes.highest) > length_of(given.formula.variables)
    }),
    ("V of four digits, choices", |given| {
        given.formula.variables >= 1_000 && given.sizes.choices > 0
    }),
    ("workspace just enough", |given| {
        given.call.workspace == given.formula.workspace_needed()
    }),
];

/// Traps with lures: choices that are linked.
fn any_valley(random: &mut Random) -> Formula {
    let (traps, lures) = (random.between(2, 5), random.between(5, 7));
    let pairs = random.between(1, traps);
    Valley::random(random, traps, lures, pairs).shuffled_formula(random)
}

/// Clauses of any kind. V may be above all of them, and above its limit.
fn any_formula(random: &mut Random) -> Formula {
    let (variables, clauses) = (random.below(25), random.below(27));
    let mut formula = match random.below(10) {
        0 => noise(random, variables % 4, clauses % 4),
        1 => clauses_apart(random.between(4, 65), random.between(1, 3)),
        2 => clauses_apart(64, random.between(1, 2)),
        3 | 4 => any_valley(random),
        _ => planned(random, variables, clauses),
    };
    formula.variables += *random.one_of(&[0, 0, 0, 0, 1, 4, 90, 900, 7_800, 8_000]);
    formula
}

fn any_settings(random: &mut Random) -> Settings {
    let step = match random.below(10) {
        0 => *random.one_of(&[0, 101, 102, u32::MAX]),
        1 | 2 => 1,
        3 => 100,
        _ => random.between(1, 100) as u32,
    };
    Settings {
        step,
        ..Settings::new(*random.one_of(&FORMS), *random.one_of(&ARRANGEMENTS))
    }
}

/// A third of the texts damaged once or twice; just enough workspace, one entry less, or more.
fn any_call(random: &mut Random) -> Call {
    let formula = any_formula(random);
    let pairs = if formula.clauses.len() > 3 { 40 } else { 0 };
    let Joined { mut text, formula } = varied(random, formula, 40, pairs);
    if random.chance(33) {
        for _ in 0..random.between(1, 2) {
            text = damage(random, &text);
        }
    }
    let needed = formula.workspace_needed();
    Call {
        text,
        settings: any_settings(random),
        workspace: *random.one_of(&[needed, needed, needed, needed - 1, needed + 1, u64::MAX]),
    }
}

/// No number but these occurs: neither 12 nor 13 nor 17.
#[test]
fn drawn_formulas() {
    let mut occurred = Occurred::default();
    for seed in 0..5_000 {
        occurred.check(&any_call(&mut Random::new(seed)));
    }
    occurred.expect(&CASES.map(|(what, _)| what), 30);
    let numbers = occurred.numbers;
    assert!(numbers.keys().eq(&[0, 1, 2, 3, 4, 7, 8, 11, 15]));
    assert!(numbers.values().all(|&times| times >= 30));
}

/// The numbers, in their order in the result.
fn sizes_of(numbers: [usize; 6]) -> Sizes {
    let [choices, highest, clauses, lines, log_bytes, formula_bytes] = numbers;
    Sizes {
        choices,
        highest: highest as i32,
        clauses,
        lines,
        log_bytes,
        formula_bytes,
    }
}

/// The bytes are counted by hand.
#[test]
fn sessions() {
    for (text, numbers) in [
        ("p cnf 0 0", [0, 0, 0, 0, 0, 10]),
        ("p cnf 0 1\n0\n", [0, 0, 1, 0, 0, 12]),
        ("p cnf 1 2\n1 0\n-1 0\n", [0, 1, 1, 3, 15, 12]),
        ("p cnf 2 2\n1 2 0\n-1 -2 0\n", [0, 2, 0, 2, 18, 10]),
        ("p cnf 3 2\n1 2 0\n-1 3 0\n", [0, 3, 0, 4, 31, 10]),
        (JOINED_E, [0, 3, 0, 4, 31, 10]),
    ] {
        for form in FORMS {
            let given = Call::new(text.as_bytes(), form, 1).sizes();
            assert_eq!(given, Ok(sizes_of(numbers)), "{text:?}");
        }
    }
    let tallies = [[1, 10, 21, 18, 150, 175], [1, 10, 8, 41, 371, 77]];
    for (form, numbers) in FORMS.into_iter().zip(tallies) {
        let given = Call::new(F.as_bytes(), form, 1).sizes();
        assert_eq!(given, Ok(sizes_of(numbers)));
    }
}

/// Three choices, of 5, 6 and 7 literals, with each step and with steps out of range.
#[test]
fn every_step() {
    let clauses = [1..=5, 6..=11, 12..=18].map(|variables| variables.collect::<Vec<i32>>());
    let text = formula_text(18, &clauses);
    let mut occurred = Occurred::default();
    for step in 0..=101 {
        for form in FORMS {
            occurred.check(&Call::new(&text, form, step));
        }
    }
    occurred.expect(&["several choices", "H longer than V"], 100);
    assert_eq!(occurred.numbers, BTreeMap::from([(0, 200), (15, 4)]));
}

/// H 70,000 and one more, with a last choice of 8 and of 9; 1,600 choices of 5, which steps above 38 bring past it.
#[test]
fn the_highest_variable() {
    let mut occurred = Occurred::default();
    let apart = text_of(&clauses_apart(5, 1_600));
    for (text, step, highest) in [
        (&many_choices(8_000, 8), 99, Ok(70_000)),
        (&many_choices(8_000, 9), 99, Err(16)),
        (&many_choices(7_920, 64), 99, Ok(69_957)),
        (&apart, 38, Ok(68_784)),
        (&apart, 39, Err(16)),
        (&apart, 100, Err(16)),
    ] {
        for form in FORMS {
            let call = Call::new(text, form, step);
            assert_eq!(call.sizes().map(|sizes| sizes.highest), highest);
            occurred.check(&call);
        }
    }
    occurred.expect(&["several choices", "H longer than V"], 6);
    assert_eq!(occurred.numbers, BTreeMap::from([(0, 6), (16, 6)]));
}

/// 20,000 clauses over 8,000 variables, and the variables in 125 choices of 64.
#[test]
fn the_largest_formulas() {
    for text in [
        largest_with(5),
        largest_with(64),
        text_of(&clauses_apart(64, 125)),
    ] {
        for form in FORMS {
            let mut call = Call::new(&text, form, 1);
            call.settings.arrangement = Arrangement::Alignment;
            let whole = call.reencode(Room::enough()).unwrap();
            assert_eq!(call.sizes(), Ok(whole.sizes()));
            expect_texts(&whole);
            assert!(whole.choices > 100 && whole.log.len() > 300_000);
        }
    }
}

#[test]
fn sixty_thousand_literals_and_one_more() {
    let mut clauses: Vec<Vec<i32>> = vec![(1..=6_000).collect(); 10];
    let mut occurred = Occurred::default();
    for number in [0, 9] {
        for form in FORMS {
            let call = Call::new(&formula_text(6_000, &clauses), form, 1);
            occurred.check(&call);
            assert_eq!(call.sizes().err().unwrap_or(0), number);
        }
        clauses.push(vec![1]);
    }
    assert_eq!(occurred.numbers, BTreeMap::from([(0, 2), (9, 2)]));
}

/// What is handed in, and the numbers that are due for it.
type Part<T> = (T, &'static [u8]);

/// In this order they are tested.
const ORDER: [u8; 6] = [15, 1, 3, 8, 11, 16];

const STEPS: [Part<u32>; 4] = [(38, &[]), (39, &[16]), (0, &[15]), (101, &[15])];

/// 1,600 choices of 5 and texts with a fault, with workspaces that are just enough and one short.
#[test]
fn numbers_in_their_order() {
    let formula = clauses_apart(5, 1_600);
    let (whole, needed) = (text_of(&formula), formula.workspace_needed());
    let with = |end: &[u8]| [&whole, end].concat();
    let texts: [Part<Vec<u8>>; 4] = [
        (whole.clone(), &[]),
        (with(b"x"), &[8]),
        (b"p cnf 1 1\nx".to_vec(), &[3]),
        (Vec::new(), &[1]),
    ];
    let workspaces: [Part<u64>; 2] = [(needed, &[]), (needed - 1, &[11])];
    for (text, in_text) in &texts {
        for (workspace, in_workspace) in workspaces {
            for (step, in_step) in STEPS {
                let mut call = Call::new(text, Form::Counter, step);
                call.workspace = workspace;
                let due = [in_text, in_workspace, in_step].concat();
                let first = ORDER.into_iter().find(|number| due.contains(number));
                assert_eq!(call.sizes().err(), first, "{due:?}");
                assert_eq!(call.reencode(Room::enough()).err(), first, "{due:?}");
            }
        }
    }
}
