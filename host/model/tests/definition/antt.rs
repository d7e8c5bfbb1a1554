//! The rows as theorems for the checker: each says that a call of the definition gives what the model
//! gives. All that is written in the checker's language stands in this file.

use crate::rows::{Call, Carry, Numbers, Outcome, Row};
use model::{Arrangement, ChoiceRecord, Form, Room, Settings};

/// What the rows' theorems share: settings, and tests of what a call gives. `computing` opens all that a
/// row computes with.
pub const GIVEN: &str = "-- Settings, and tests of what the definition's calls give.
use Rattle.std.specs.Prelude.{Bool, true, false, ◌&&◌, List, [], ◌∷◌, ℕ, eqb}
use Prim.Native.String.{String}
use Rattle.definition.specs.Lists
use Rattle.definition.specs.Lists.{for_each}
use Rattle.definition.specs.Checked
use Rattle.definition.specs.Literals
use Rattle.definition.specs.Text
use Rattle.definition.specs.Text.{Bytes, bytes, same_bytes}
use Rattle.definition.specs.Reading
use Rattle.definition.specs.Reading.{Input}
use Rattle.definition.specs.Standing
use Rattle.definition.specs.Assignments
use Rattle.definition.specs.Clearing
use Rattle.definition.specs.Events.{TableRecord}
use Rattle.definition.specs.Counter
use Rattle.definition.specs.Order
use Rattle.definition.specs.Alignment
use Rattle.definition.specs.Reencoding
use Rattle.definition.specs.Reencoding.{Settings, chosen}
use Rattle.definition.specs.Log
use Rattle.definition.specs.Log.{clause_text, formula_text}
use Rattle.definition.specs.LogReading
use Rattle.definition.specs.Answer
use Rattle.definition.specs.Calls
use Rattle.definition.specs.Calls.{Tally, Reencoded}
use Rattle.definition.specs.Sessions.{good, is_fault}

-- settings by their step
unfoldable pub counter_by : ℕ → Settings
counter_by g = record { form = Reencoding.counter_form; arrangement = Alignment.as_listed; step = g }

unfoldable pub counter_aligned_by : ℕ → Settings
counter_aligned_by g = record { form = Reencoding.counter_form; arrangement = Alignment.alignment; step = g }

unfoldable pub order_by : ℕ → Settings
order_by g = record { form = Reencoding.order_form; arrangement = Alignment.as_listed; step = g }

unfoldable pub order_aligned_by : ℕ → Settings
order_aligned_by g = record { form = Reencoding.order_form; arrangement = Alignment.alignment; step = g }

unfoldable pub same_tally : Tally → Tally → Bool
same_tally a b =
    eqb a.choices b.choices && eqb a.highest b.highest && eqb a.clauses b.clauses
    && eqb a.lines b.lines && eqb a.log_bytes b.log_bytes && eqb a.formula_bytes b.formula_bytes

-- a record by its first variable, its length and its count of input clauses
unfoldable pub entry : ℕ → ℕ → ℕ → TableRecord
entry v k n = record { first = v; length = k; clauses = n }

unfoldable pub same_entry : TableRecord → TableRecord → Bool
same_entry a b = eqb a.first b.first && eqb a.length b.length && eqb a.clauses b.clauses

unfoldable pub same_table : List TableRecord → List TableRecord → Bool
unfolding same_entry
same_table [] [] = true
same_table [] (b ∷ bs) = false
same_table (a ∷ as') [] = false
same_table (a ∷ as') (b ∷ bs) = same_entry a b && same_table as' bs

-- the result, the log, the new formula and the table
unfoldable pub reencoded : Tally → String → String → List TableRecord → Reencoded → Bool
reencoded tally log out table r =
    same_tally tally r.tally && same_bytes (bytes log) r.log && same_bytes (bytes out) r.formula
    && same_table table r.table

-- what is read back, written again
unfoldable pub read : String → Input → Bool
read out i = same_bytes (bytes out) (formula_text i.variables i.formula)

-- the line that an answer or a plan is carried to
unfoldable pub line : String → Bytes → Bool
line out t = same_bytes (bytes out) t

-- the choices, laid out like added lines
unfoldable pub choices : String → Input → Bool
choices out i = same_bytes (bytes out) (for_each (chosen (counter_by 1) i) clause_text)

unfoldable pub computing : Unit {0}
unfolding counter_by order_by counter_aligned_by order_aligned_by good is_fault same_tally entry same_entry same_table reencoded read line choices Lists.computing Checked.computing Literals.computing Text.computing Reading.computing Standing.computing Assignments.computing Clearing.computing Counter.computing Order.computing Alignment.computing Reencoding.computing Log.computing LogReading.computing Answer.computing Calls.computing
computing = tt
";

/// The files of the rows' crate.
pub const LIB: &str = "pub mod Given\npub mod Rows\n";

const USES: &str = "use Rattle.std.specs.Prelude.{[], ◌∷◌, T}
use Rattle.definition.specs.Text.{bytes}
use Rattle.definition.specs.Reading.{input_limits, read_formula}
use Rattle.definition.specs.Calls.{reencode, sizes, read_back, walk_back, carry_forward}
use Rattle.definition.specs.Sessions.{good, is_fault}
use Rattle.rows.specs.Given
use Rattle.rows.specs.Given.{counter_by, counter_aligned_by, order_by, order_aligned_by}
use Rattle.rows.specs.Given.{same_tally, entry, reencoded, read, line, choices}
";

/// A theorem for each row, under its name.
pub fn theorems(rows: &[(String, Row)]) -> String {
    let mut text = String::from(USES);
    for (name, row) in rows {
        let row = row_text(row);
        text += &format!("\npub {name} : T ({row})\nunfolding Given.computing\n{name} = tt\n");
    }
    text
}

pub fn row_text(row: &Row) -> String {
    let call = call_text(&row.call);
    match &row.outcome {
        Outcome::Refused(number) => format!("is_fault ({call}) {number}"),
        Outcome::Reencoded {
            tally,
            log,
            formula,
            table,
        } => {
            let [tally, log, formula] = [tally_text(tally), quoted(log), quoted(formula)];
            let table = table_text(table);
            format!("good ({call}) (reencoded {tally} {log} {formula} {table})")
        }
        Outcome::Sized(tally) => format!("good ({call}) (same_tally {})", tally_text(tally)),
        Outcome::Read(text) => format!("good ({call}) (read {})", quoted(text)),
        Outcome::Line(text) => format!("good ({call}) (line {})", quoted(text)),
        Outcome::Chosen(text) => format!("good ({call}) (choices {})", quoted(text)),
    }
}

fn call_text(call: &Call) -> String {
    match call {
        Call::Reencode(call) => {
            let (settings, text) = (settings_text(call.settings), quoted(&call.text));
            let Room {
                workspace,
                log,
                formula,
                table,
            } = call.room;
            format!("reencode {settings} {workspace} {log} {formula} {table} (bytes {text})")
        }
        Call::Sizes {
            settings,
            work,
            text,
        } => {
            let (settings, text) = (settings_text(*settings), quoted(text));
            format!("sizes {settings} {work} (bytes {text})")
        }
        Call::ReadBack { work, text } => format!("read_back {work} (bytes {})", quoted(text)),
        Call::Carry(call) => carry_text(call),
        Call::Choose { text } => format!("read_formula input_limits (bytes {})", quoted(text)),
    }
}

fn carry_text(call: &Carry) -> String {
    let name = call.way.name().replace('-', "_");
    let (work, room, kept) = (call.work, call.room, call.kept);
    let [text, log, answer] = [&call.text, &call.log, &call.answer].map(|text| quoted(text));
    format!("{name} {work} {room} {kept} (bytes {text}) (bytes {log}) (bytes {answer})")
}

fn settings_text(settings: Settings) -> String {
    let form = match settings.form {
        Form::Counter => "counter",
        Form::Order => "order",
    };
    let aligned = match settings.arrangement {
        Arrangement::AsListed => "",
        Arrangement::Alignment => "_aligned",
    };
    format!("({form}{aligned}_by {})", settings.step)
}

fn table_text(table: &[ChoiceRecord]) -> String {
    let entry = |record: &ChoiceRecord| {
        let (first, length, clauses) = (record.first, record.length, record.clauses);
        format!("entry {first} {length} {clauses} ∷ ")
    };
    let entries: String = table.iter().map(entry).collect();
    format!("({entries}[])")
}

fn tally_text([choices, highest, clauses, lines, log_bytes, formula_bytes]: &Numbers) -> String {
    format!(
        "(record {{ choices = {choices}; highest = {highest}; clauses = {clauses}; lines = {lines}; \
         log_bytes = {log_bytes}; formula_bytes = {formula_bytes} }})"
    )
}

/// A text in quotes: a byte is the character with its number.
fn quoted(text: &[u8]) -> String {
    let mut quoted = String::from("\"");
    for &byte in text {
        match byte {
            b'\n' => quoted += "\\n",
            b'\r' => quoted += "\\r",
            b'\t' => quoted += "\\t",
            b'"' | b'\\' | 0..=0x1F | 0x7F..=0xBF => panic!("byte {byte} has no place in a row"),
            _ => quoted.push(char::from(byte)),
        }
    }
    quoted + "\""
}
