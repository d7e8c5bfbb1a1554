//! Truth tables.

use model::texts::Line;
use model::walk_back::Assignment;

/// One bit for each assignment; assignment a gives the variable of column v the bit v - 1 of a.
#[derive(Clone, PartialEq)]
pub struct Table {
    columns: usize,
    words: Vec<u64>,
}

impl Table {
    fn all(columns: usize, value: bool) -> Table {
        let count = 1usize << columns;
        let mut words = vec![if value { u64::MAX } else { 0 }; count.div_ceil(64)];
        if value && count < 64 {
            words[0] = (1 << count) - 1;
        }
        Table { columns, words }
    }

    /// Where the variable of a column is true.
    fn column(columns: usize, column: usize) -> Table {
        const INSIDE: [u64; 6] = [
            0xAAAA_AAAA_AAAA_AAAA,
            0xCCCC_CCCC_CCCC_CCCC,
            0xF0F0_F0F0_F0F0_F0F0,
            0xFF00_FF00_FF00_FF00,
            0xFFFF_0000_FFFF_0000,
            0xFFFF_FFFF_0000_0000,
        ];
        let mut table = Table::all(columns, true);
        for (index, word) in table.words.iter_mut().enumerate() {
            *word &= match column - 1 {
                bit if bit < 6 => INSIDE[bit],
                bit if index >> (bit - 6) & 1 == 1 => u64::MAX,
                _ => 0,
            };
        }
        table
    }

    fn combined(&self, other: &Table, how: impl Fn(u64, u64) -> u64) -> Table {
        let words = self.words.iter().zip(&other.words);
        Table {
            columns: self.columns,
            words: words.map(|(&a, &b)| how(a, b)).collect(),
        }
    }

    pub fn and(&self, other: &Table) -> Table {
        self.combined(other, |a, b| a & b)
    }

    pub fn or(&self, other: &Table) -> Table {
        self.combined(other, |a, b| a | b)
    }

    pub fn and_not(&self, other: &Table) -> Table {
        self.combined(other, |a, b| a & !b)
    }

    /// The table's value at each assignment with the variable of a column turned over.
    fn turned(&self, column: usize) -> Table {
        let bit = column - 1;
        let count = self.words.len();
        let words = (0..count).map(|index| {
            if bit >= 6 {
                return self.words[index ^ 1 << (bit - 6)];
            }
            let mask = Table::column(6, column).words[0];
            let word = self.words[index];
            (word & mask) >> (1 << bit) | (word & !mask) << (1 << bit)
        });
        Table {
            columns: self.columns,
            words: words.collect(),
        }
    }

    pub fn is_empty(&self) -> bool {
        self.words.iter().all(|&word| word == 0)
    }

    pub fn within(&self, other: &Table) -> bool {
        self.and_not(other).is_empty()
    }

    /// The first assignment from the start on that is in the table, or the first before it.
    pub fn find(&self, start: usize) -> Option<usize> {
        let is_in = |a: &usize| self.words[a / 64] >> (a % 64) & 1 == 1;
        (start..1 << self.columns).chain(0..start).find(is_in)
    }
}

pub struct Tables {
    /// The variables of the columns.
    pub variables: Vec<i32>,
    positive: Vec<Table>,
    whole: Table,
}

impl Tables {
    /// Over the variables, which rise.
    pub fn new(variables: impl IntoIterator<Item = i32>) -> Tables {
        let variables: Vec<i32> = variables.into_iter().collect();
        let columns = variables.len();
        Tables {
            variables,
            positive: (1..=columns)
                .map(|column| Table::column(columns, column))
                .collect(),
            whole: Table::all(columns, true),
        }
    }

    /// The table of all assignments.
    pub fn whole(&self) -> Table {
        self.whole.clone()
    }

    fn none(&self) -> Table {
        Table::all(self.variables.len(), false)
    }

    /// The column of a literal's variable, from 1.
    fn column(&self, literal: i32) -> usize {
        let place = self.variables.binary_search(&literal.abs());
        place.expect("the variable is used") + 1
    }

    fn literal(&self, literal: i32) -> Table {
        let positive = &self.positive[self.column(literal) - 1];
        if literal > 0 {
            positive.clone()
        } else {
            self.whole.and_not(positive)
        }
    }

    /// The table's value at each assignment with the literal turned over.
    pub fn turned(&self, table: &Table, literal: i32) -> Table {
        table.turned(self.column(literal))
    }

    /// The values that an assignment gives, at the variables' indices up to the highest; others are false.
    pub fn values(&self, assignment: usize, highest: i32) -> Assignment {
        let mut values = vec![false; highest as usize + 1];
        for (bit, &variable) in self.variables.iter().enumerate() {
            values[variable as usize] = assignment >> bit & 1 == 1;
        }
        values
    }

    pub fn clause(&self, clause: &[i32]) -> Table {
        clause.iter().fold(self.none(), |table, &literal| {
            table.or(&self.literal(literal))
        })
    }

    pub fn list(&self, clauses: &[Vec<i32>]) -> Table {
        clauses.iter().fold(self.whole(), |table, clause| {
            table.and(&self.clause(clause))
        })
    }

    pub fn exactly_one(&self, clause: &[i32]) -> Table {
        let mut none = self.whole();
        let mut one = self.none();
        for &literal in clause {
            let this = self.literal(literal);
            one = one.and_not(&this).or(&none.and(&this));
            none = none.and_not(&this);
        }
        one
    }

    /// Where `good` holds after one step back over the line.
    pub fn before(&self, line: &Line, good: &Table) -> Table {
        match line.literals.first() {
            Some(first) if line.deletion => {
                let kept = self.clause(&line.literals);
                let turned = self.turned(good, *first);
                kept.and(good).or(&turned.and_not(&kept))
            }
            _ => good.clone(),
        }
    }
}
