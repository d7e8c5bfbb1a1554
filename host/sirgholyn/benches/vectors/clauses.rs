//! The clauses of a run in list order, found by place and by literal.

/// Where a literal's entry is in a table by literal.
pub fn index(literal: i32) -> usize {
    2 * literal.unsigned_abs() as usize + usize::from(literal < 0)
}

/// The length of a table by literal of so many variables.
pub fn entries(variables: i32) -> usize {
    index(variables + 1)
}

/// A literal's places are cleaned when more than half of them are of deleted clauses; up to so many may always be.
const FEW: usize = 16;

pub struct Clauses {
    /// At its place each clause that stands.
    list: Vec<Option<Vec<i32>>>,
    /// For each literal the places of its clauses in list order, those of deleted ones among them.
    places: Vec<Vec<u32>>,
    /// For each literal how many clauses with it stand.
    counts: Vec<u32>,
}

impl Clauses {
    pub fn new(variables: i32, list: Vec<Vec<i32>>) -> Clauses {
        let mut clauses = Clauses {
            list: Vec::with_capacity(list.len()),
            places: Vec::new(),
            counts: Vec::new(),
        };
        clauses.reach(variables);
        for clause in list {
            clauses.add(clause);
        }
        clauses
    }

    /// Makes room for variables up to this one.
    pub fn reach(&mut self, highest: i32) {
        self.places.resize(entries(highest), Vec::new());
        self.counts.resize(entries(highest), 0);
    }

    pub fn add(&mut self, clause: Vec<i32>) -> usize {
        let place = self.list.len();
        for &literal in &clause {
            let at = index(literal);
            let places = &mut self.places[at];
            if places.len() > 2 * self.counts[at] as usize + FEW {
                places.retain(|&place| self.list[place as usize].is_some());
            }
            places.push(place as u32);
            self.counts[at] += 1;
        }
        self.list.push(Some(clause));
        place
    }

    /// Takes the clause at a place, where one stands, out of the list.
    pub fn delete(&mut self, place: usize) -> Vec<i32> {
        let clause = self.list[place].take().expect("a clause stands here");
        for &literal in &clause {
            self.counts[index(literal)] -= 1;
        }
        clause
    }

    /// The clause at a place, if one stands there.
    pub fn get(&self, place: usize) -> Option<&[i32]> {
        self.list[place].as_deref()
    }

    /// One past the last place.
    pub fn end(&self) -> usize {
        self.list.len()
    }

    /// The clauses that stand and their places, in list order.
    pub fn standing(&self) -> impl Iterator<Item = (usize, &[i32])> {
        let clauses = self.list.iter().enumerate();
        clauses.filter_map(|(place, clause)| Some((place, clause.as_deref()?)))
    }

    /// The clauses that stand and hold the literal, and their places, from the last to the first.
    pub fn last_with(&self, literal: i32) -> impl Iterator<Item = (usize, &[i32])> {
        let places = self.places[index(literal)].iter().rev();
        places.filter_map(|&place| Some((place as usize, self.get(place as usize)?)))
    }

    /// In how many clauses the literal stands.
    pub fn count(&self, literal: i32) -> u32 {
        self.counts[index(literal)]
    }

    /// Whether the clause, which stands, is not empty and shares no literal with another.
    pub fn is_unique(&self, clause: &[i32]) -> bool {
        !clause.is_empty() && clause.iter().all(|&literal| self.count(literal) == 1)
    }
}
