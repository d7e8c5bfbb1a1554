//! What the tests share: each call beside the model's, on buffers filled with a pattern first.
#![allow(dead_code)]

pub mod command;
pub mod formulas;
pub mod lines;
pub mod solvers;

use model::encoding::Encoding;
use model::generator::text_of;
use model::reading::Formula;
use model::texts::log_text;
use sirgholyn::calls::{self, library};
use sirgholyn::{Arrangement, ChoiceRecord, Error, Form, Refusal, Settings, Tally, WalkBackRoom};
use std::collections::BTreeMap;
use std::ops::Range;
use std::thread;

/// All forms and arrangements, with step 1.
pub const WAYS: [Settings; 4] = [
    Settings::new(Form::Counter, Arrangement::AsListed),
    Settings::new(Form::Counter, Arrangement::Alignment),
    Settings::new(Form::Order, Arrangement::AsListed),
    Settings::new(Form::Order, Arrangement::Alignment),
];

/// Steps that are accepted.
pub const STEPS: [u32; 8] = [1, 2, 3, 7, 10, 39, 64, 100];

/// Steps that are refused.
pub const NO_STEPS: [u32; 3] = [0, 101, u32::MAX];

/// A way for each seed: all ways with the first step, then with the second, and so on.
pub fn way_of(seed: u64) -> Settings {
    let seed = seed as usize;
    WAYS[seed % WAYS.len()].with_step(STEPS[seed / WAYS.len() % STEPS.len()])
}

/// The numbers of refusals.
pub const LISTED: [u32; 24] = [
    1, 2, 3, 4, 7, 8, 9, 11, 12, 13, 14, 15, 16, 17, 31, 32, 33, 34, 41, 42, 43, 44, 45, 46,
];

/// The listed numbers that someone can mend, as in `1 to 4, 7 to 9`.
pub fn numbers_of(mender: &str) -> String {
    let is_own = |&number: &u32| Refusal(number).mender() == mender;
    let numbers: Vec<u32> = LISTED.into_iter().filter(is_own).collect();
    let runs = numbers.chunk_by(|one, next| one + 1 == *next);
    let words = runs.map(|run| match run {
        [first, .., last] => format!("{first} to {last}"),
        _ => run[0].to_string(),
    });
    words.collect::<Vec<_>>().join(", ")
}

/// More than any formula of the tests wants.
pub const PLENTY: usize = 1 << 24;

/// How often each outcome occurred; 0 is a result.
pub type Numbers = BTreeMap<u32, usize>;

pub fn count(numbers: &mut Numbers, outcome: u32) {
    *numbers.entry(outcome).or_default() += 1;
}

/// How often what is remarkable occurred, by name.
pub type Occurred = BTreeMap<String, usize>;

pub fn note(occurred: &mut Occurred, what: impl Into<String>, times: usize) {
    *occurred.entry(what.into()).or_default() += times;
}

/// Each occurred more often than its number.
pub fn expect_more<S: AsRef<str>>(
    occurred: &Occurred,
    cases: impl IntoIterator<Item = (S, usize)>,
) {
    for (what, number) in cases {
        let what = what.as_ref();
        let times = occurred.get(what).copied().unwrap_or(0);
        assert!(times > number, "{what}: {times}");
    }
}

pub fn in_model(way: Settings) -> model::Settings {
    let form = match way.form {
        Form::Counter => model::Form::Counter,
        Form::Order => model::Form::Order,
    };
    let arrangement = match way.arrangement {
        Arrangement::AsListed => model::Arrangement::AsListed,
        Arrangement::Alignment => model::Arrangement::Alignment,
    };
    model::Settings {
        form,
        arrangement,
        step: way.step,
    }
}

pub fn run_model(formula: &Formula, way: Settings) -> Encoding {
    Encoding::run(formula, in_model(way))
}

/// The model's records as the library has them.
pub fn records(table: &[model::ChoiceRecord]) -> Vec<ChoiceRecord> {
    let record = |choice: &model::ChoiceRecord| ChoiceRecord {
        first: choice.first as u32,
        length: choice.length as u32,
        clauses: choice.clauses as u32,
    };
    table.iter().map(record).collect()
}

/// Sizes of a reencoding's buffers.
#[derive(Debug, Clone, Copy)]
pub struct Room {
    pub work: usize,
    pub log: usize,
    pub formula: usize,
    /// Records.
    pub table: usize,
}

impl Room {
    /// What reencoding asks for, the lengths of both texts, and a record for each choice.
    pub fn exact(formula: &Formula, encoding: &Encoding) -> Room {
        Room {
            work: work_for(formula),
            log: log_text(&encoding.log).len(),
            formula: text_of(&new_formula(encoding)).len(),
            table: encoding.table.len(),
        }
    }

    fn in_model(self) -> model::Room {
        model::Room {
            workspace: self.work as u64,
            log: self.log,
            formula: self.formula,
            table: self.table,
        }
    }
}

/// A record that no choice has.
const NO_RECORD: ChoiceRecord = ChoiceRecord {
    first: 0xA5A5_A5A5,
    length: 0x5A5A_5A5A,
    clauses: 0xA5A5_5A5A,
};

/// Reencodes by library and model, and compares number, tally, table and every byte; the answer is the number.
pub fn compare_reencode(text: &[u8], way: Settings, room: Room) -> u32 {
    let expected = model::reencode(text, in_model(way), room.in_model());
    let mut work = vec![-7; room.work];
    expect_reencoded(&expected, text, way, &mut work, room)
}

/// Reencodes by library on the workspace, and compares with what the model gives; the answer is the number. `sizes` on
/// the same workspace tells the same.
pub fn expect_reencoded(
    expected: &Result<model::Reencoded, u8>,
    text: &[u8],
    way: Settings,
    work: &mut [i32],
    room: Room,
) -> u32 {
    let mut log = vec![0xA5; room.log];
    let mut formula = vec![0x5A; room.formula];
    let mut table = vec![NO_RECORD; room.table];
    let found = calls::reencode(text, way, work, &mut log, &mut formula, &mut table);
    let seen = || format!("{} {way:?} {room:?}", shown(text));
    let sized = calls::sizes(text, way, work);
    assert!(is_told_by(sized, expected), "{sized:?}: {}", seen());
    match (expected, found) {
        (Ok(expected), Ok(tally)) => {
            assert_eq!(tally, tally_of(&expected.sizes()), "{}", seen());
            assert_written(&log, &expected.log, 0xA5, &seen);
            assert_written(&formula, &expected.formula, 0x5A, &seen);
            assert_written(&table, &records(&expected.table), NO_RECORD, &seen);
            0
        }
        (Err(expected), Err(number)) => {
            assert_eq!(u32::from(*expected), number, "{}", seen());
            assert!(
                log.iter().chain(&formula).all(|&byte| byte == 0),
                "{}",
                seen()
            );
            let zero = ChoiceRecord::default();
            assert!(table.iter().all(|&record| record == zero), "{}", seen());
            number
        }
        _ => panic!("{expected:?}, found {found:?}: {}", seen()),
    }
}

/// Whether these are the sizes of what is expected of a reencoding: the same tally or the same number. Where a buffer is
/// too short there are sizes.
fn is_told_by(sized: Result<Tally, u32>, expected: &Result<model::Reencoded, u8>) -> bool {
    match expected {
        Ok(expected) => sized == Ok(tally_of(&expected.sizes())),
        Err(12 | 13 | 17) => sized.is_ok(),
        Err(number) => sized == Err(u32::from(*number)),
    }
}

/// The model's sizes as the library has them.
fn tally_of(sizes: &model::Sizes) -> Tally {
    Tally {
        choices: sizes.choices as u64,
        highest: sizes.highest as u64,
        clauses: sizes.clauses as u64,
        lines: sizes.lines as u64,
        log_bytes: sizes.log_bytes,
        formula_bytes: sizes.formula_bytes,
    }
}

/// The sizes by library and model, or the number, compared. The tally lent is longer than the counts: a refusal leaves
/// it all zero, and else what lies past them is unchanged.
pub fn compare_sizes(text: &[u8], way: Settings, work: usize) -> Result<Tally, u32> {
    let sizes = model::sizes(text, in_model(way), work as u64);
    let expected = sizes.map(|sizes| tally_of(&sizes)).map_err(u32::from);
    let mut tally = [77; 8];
    let number = write_sizes(text, way, &mut vec![-7; work], &mut tally);
    let (number_expected, tally_expected) = match &expected {
        Ok(tally) => (0, [counts_of(tally).as_slice(), &[77; 2]].concat()),
        Err(number) => (*number, vec![0; 8]),
    };
    assert_eq!(
        (number, tally.as_slice()),
        (number_expected, tally_expected.as_slice()),
        "{} {way:?} {work}",
        shown(text)
    );
    expected
}

/// The counts in the order in which they are written.
pub fn counts_of(tally: &Tally) -> [u64; 6] {
    [
        tally.choices,
        tally.highest,
        tally.clauses,
        tally.lines,
        tally.log_bytes as u64,
        tally.formula_bytes as u64,
    ]
}

/// The C function on a tally of any length.
pub fn write_sizes(text: &[u8], way: Settings, work: &mut [i32], tally: &mut [u64]) -> u32 {
    // SAFETY: each pointer and length are those of one slice.
    let call = move || unsafe {
        library::sirgholyn_sizes(
            text.as_ptr(),
            text.len(),
            way.form as u32,
            way.arrangement as u32,
            way.step,
            work.as_mut_ptr(),
            work.len(),
            tally.as_mut_ptr(),
            tally.len(),
        )
    };
    calls::on_large_stack(call).unwrap()
}

/// Reencodes on buffers of just these sizes, which gives the same tally, and with each of them one short where it is
/// not empty; the answer has the numbers of these refusals.
pub fn expect_exact(text: &[u8], way: Settings, work: usize, tally: Tally) -> Vec<u32> {
    let exact = [tally.choices as usize, tally.log_bytes, tally.formula_bytes];
    let mut work = vec![-7; work];
    let mut reencode = |[table, log, formula]: [usize; 3]| {
        let (mut log, mut formula) = (vec![0; log], vec![0; formula]);
        let table = &mut vec![NO_RECORD; table];
        calls::reencode(text, way, &mut work, &mut log, &mut formula, table)
    };
    assert_eq!(reencode(exact), Ok(tally));
    let mut refused = Vec::new();
    for (place, number) in [17, 12, 13].into_iter().enumerate() {
        let mut short = exact;
        if exact[place] > 0 {
            short[place] -= 1;
            assert_eq!(reencode(short), Err(number), "{} {way:?}", shown(text));
            refused.push(number);
        }
    }
    refused
}

/// Which way an assignment is carried over the kept lines of a log: an answer back, or a plan forward.
#[derive(Debug, Clone, Copy, PartialEq, Eq)]
pub enum Carrying {
    Back,
    Forward,
}

pub const CARRYING: [Carrying; 2] = [Carrying::Back, Carrying::Forward];

impl Carrying {
    pub fn name(self) -> &'static str {
        match self {
            Carrying::Back => "walk-back",
            Carrying::Forward => "carry-forward",
        }
    }

    /// The library's call with buffers of its own.
    pub fn call(
        self,
        formula: &[u8],
        log: &[u8],
        kept: usize,
        assignment: &[u8],
        room: WalkBackRoom,
    ) -> Result<Vec<u8>, Error> {
        let call = match self {
            Carrying::Back => sirgholyn::walk_back,
            Carrying::Forward => sirgholyn::carry_forward,
        };
        call(formula, log, kept, assignment, room)
    }

    /// The line by library and model, number and every byte compared.
    pub fn line(
        self,
        formula: &[u8],
        log: &[u8],
        kept: usize,
        assignment: &[u8],
        work: usize,
        room: usize,
    ) -> Result<Vec<u8>, u32> {
        let expected = match self {
            Carrying::Back => model::walk_back,
            Carrying::Forward => model::carry_forward,
        }(formula, log, kept, assignment, work as u64, room);
        let mut work = vec![-7; work];
        let mut line = vec![0xA5; room];
        let found = match self {
            Carrying::Back => calls::walk_back,
            Carrying::Forward => calls::carry_forward,
        }(formula, log, kept, assignment, &mut work, &mut line);
        let seen = || {
            let texts = [formula, log, assignment].map(shown).join("\n");
            format!("{self:?}, kept {kept}\n{texts}")
        };
        match (&expected, found) {
            (Ok(expected), Ok(bytes)) => {
                assert_eq!(bytes, expected.len(), "{}", seen());
                assert_written(&line, expected, 0xA5, &seen);
            }
            (Err(expected), Err(number)) => {
                assert_eq!(u32::from(*expected), number, "{}", seen());
                assert!(line.iter().all(|&byte| byte == 0), "{}", seen());
            }
            _ => panic!("{expected:?}, found {found:?}: {}", seen()),
        }
        expected.map_err(u32::from)
    }

    /// Carries by library and model, and compares number and every byte; the answer is the number.
    pub fn compare(
        self,
        formula: &[u8],
        log: &[u8],
        kept: usize,
        assignment: &[u8],
        work: usize,
        room: usize,
    ) -> u32 {
        let line = self.line(formula, log, kept, assignment, work, room);
        line.err().unwrap_or(0)
    }
}

/// Reads back by library and model, and compares number, counts and every entry; the answer is the
/// number.
pub fn compare_read_back(text: &[u8], store: usize) -> u32 {
    let expected = model::read_back(text, store as u64);
    let mut store = vec![-7; store];
    let found = calls::read_back(text, &mut store);
    let seen = || shown(text);
    match (&expected, found) {
        (Ok((variables, clauses)), Ok(counts)) => {
            let mut entries: Vec<i32> = Vec::new();
            for clause in clauses {
                entries.push(clause.len() as i32);
                entries.extend(clause);
            }
            let expected_counts = calls::Counts {
                variables: *variables as u64,
                clauses: clauses.len() as u64,
                literals: (entries.len() - clauses.len()) as u64,
            };
            assert_eq!(counts, expected_counts, "{}", seen());
            assert_written(&store, &entries, -7, &seen);
            0
        }
        (Err(expected), Err(number)) => {
            assert_eq!(u32::from(*expected), number, "{}", seen());
            assert!(store.iter().all(|&entry| entry == 0), "{}", seen());
            number
        }
        _ => panic!("found {found:?}: {}", seen()),
    }
}

/// What was written stands at the start, and the pattern after it.
fn assert_written<T: Copy + PartialEq>(
    buffer: &[T],
    expected: &[T],
    pattern: T,
    seen: &dyn Fn() -> String,
) {
    let (written, rest) = buffer.split_at(expected.len());
    assert!(written == expected, "other bytes: {}", seen());
    assert!(
        rest.iter().all(|&entry| entry == pattern),
        "written past the end: {}",
        seen()
    );
}

fn shown(text: &[u8]) -> String {
    let mut shown = String::from_utf8_lossy(text).into_owned();
    if let Some((cut, _)) = shown.char_indices().nth(4_000) {
        shown.truncate(cut);
    }
    format!("{shown:?}")
}

/// The workspace that reencoding and reading back ask for, and that a formula's text does.
pub fn work_for(formula: &Formula) -> usize {
    formula.workspace_needed() as usize
}

/// The workspace that walk-back and carrying forward ask for, for a formula and a log that are in order.
pub fn carrying_work(formula: &Formula, log: &[u8], kept: usize) -> usize {
    let lines = model::log_reading::read_kept_lines(log, kept).unwrap_or_default();
    model::walk_back::workspace_needed(formula, &lines) as usize
}

/// Does the work for each seed on all processors, and gives what each processor has counted.
pub fn over_seeds<C: Default + Send>(
    seeds: Range<u64>,
    work: impl Fn(u64, &mut C) + Sync,
) -> Vec<C> {
    let processors = thread::available_parallelism().map_or(2, usize::from) as u64;
    let work = &work;
    thread::scope(|scope| {
        let threads: Vec<_> = (0..processors)
            .map(|own| {
                let seeds = seeds.clone();
                let all = move || {
                    let mut counted = C::default();
                    for seed in seeds.filter(|seed| seed % processors == own) {
                        work(seed, &mut counted);
                    }
                    counted
                };
                scope.spawn(|| calls::on_large_stack(all).unwrap())
            })
            .collect();
        threads
            .into_iter()
            .map(|thread| match thread.join() {
                Ok(counted) => counted,
                Err(panic) => std::panic::resume_unwind(panic),
            })
            .collect()
    })
}

/// How many numbers between V and H stand in no clause, as they are skipped.
pub fn skipped(formula: &Formula, encoding: &Encoding) -> usize {
    let used: usize = encoding.table.iter().map(|choice| choice.length - 1).sum();
    (encoding.highest - formula.variables) as usize - used
}

/// The clauses left standing.
pub fn new_formula(encoding: &Encoding) -> Formula {
    Formula::new(encoding.highest, encoding.standing.clauses())
}

/// Each of these outcomes occurred, and none that is not listed.
pub fn expect_numbers(numbers: &Numbers, expected: &[u32]) {
    println!("{numbers:?}");
    assert!(expected.iter().all(|number| numbers.contains_key(number)));
    let is_listed = |&number: &u32| number == 0 || LISTED.contains(&number);
    assert!(numbers.keys().all(is_listed));
}

/// Counts by name or number, added up.
pub fn sum<K: Ord>(all: impl IntoIterator<Item = BTreeMap<K, usize>>) -> BTreeMap<K, usize> {
    let mut sum = BTreeMap::new();
    for (what, times) in all.into_iter().flatten() {
        *sum.entry(what).or_default() += times;
    }
    sum
}
