//! The standing clauses: their literals in one arena, and chains that find a clause by its set.

use super::variables::Literal;

/// A clause's place in the arena: that of its header, which its literals follow.
pub type Clause = u32;

/// No clause.
pub const NONE: Clause = u32::MAX;

/// The header: the number of literals with the mark DEAD, the hash of the set, the next clause of the chain.
const HEADER: usize = 3;
const SIZE: usize = 0;
const HASH: usize = 1;
const NEXT: usize = 2;
const DEAD: u32 = 1 << 31;

const FEWEST_CHAINS: usize = 64;

/// Dead entries below this are not worth a collection.
const FEW: usize = 1 << 10;

pub struct Clauses {
    arena: Vec<u32>,
    /// The first clause of each chain; their number is a power of two.
    chains: Vec<Clause>,
    standing: usize,
    /// Entries of dead clauses.
    dead: usize,
}

/// Where each clause of a collected arena has gone.
pub struct Moves(Vec<u32>);

impl Moves {
    /// None where the clause is dead.
    pub fn place(&self, clause: Clause) -> Option<Clause> {
        let header = clause as usize;
        let stands = self.0[header + SIZE] & DEAD == 0;
        stands.then(|| self.0[header + NEXT])
    }
}

/// The same for every order of the literals.
fn hash(literals: &[Literal]) -> u32 {
    let mixed = literals.iter().map(|&literal| {
        let spread = u64::from(literal + 1).wrapping_mul(0x9E37_79B9_7F4A_7C15);
        (spread ^ (spread >> 29)).wrapping_mul(0xBF58_476D_1CE4_E5B9) >> 32
    });
    mixed.fold(0u32, |sum, one| sum.wrapping_add(one as u32))
}

impl Default for Clauses {
    fn default() -> Clauses {
        Clauses {
            arena: Vec::new(),
            chains: vec![NONE; FEWEST_CHAINS],
            standing: 0,
            dead: 0,
        }
    }
}

impl Clauses {
    /// Whether a clause of so many literals still has a place.
    pub fn has_room(&self, literals: usize) -> bool {
        self.arena.len() + HEADER + literals < NONE as usize && literals < DEAD as usize
    }

    pub fn stands(&self, clause: Clause) -> bool {
        self.arena[clause as usize + SIZE] & DEAD == 0
    }

    pub fn literals(&self, clause: Clause) -> &[Literal] {
        let start = clause as usize + HEADER;
        let size = (self.arena[clause as usize + SIZE] & !DEAD) as usize;
        &self.arena[start..start + size]
    }

    pub fn literals_mut(&mut self, clause: Clause) -> &mut [Literal] {
        let start = clause as usize + HEADER;
        let size = (self.arena[clause as usize + SIZE] & !DEAD) as usize;
        &mut self.arena[start..start + size]
    }

    /// Appends a clause of distinct literals.
    pub fn append(&mut self, literals: &[Literal]) -> Clause {
        assert!(self.has_room(literals.len()), "more clauses than have room");
        if self.standing >= self.chains.len() {
            self.chain_all(self.chains.len() * 2);
        }
        let clause = self.arena.len() as Clause;
        let header = [literals.len() as u32, hash(literals), NONE];
        self.arena.extend(header);
        self.arena.extend(literals);
        self.standing += 1;
        self.link(clause);
        clause
    }

    /// A standing clause of just these literals, each of which is marked; rather one that is not in use.
    pub fn find(
        &self,
        literals: &[Literal],
        marked: impl Fn(Literal) -> bool,
        in_use: impl Fn(Clause) -> bool,
    ) -> Option<Clause> {
        let hash = hash(literals);
        let same_set = |&clause: &Clause| {
            let found = self.literals(clause);
            self.arena[clause as usize + HASH] == hash
                && found.len() == literals.len()
                && found.iter().all(|&literal| marked(literal))
        };
        let mut found = self.chain(hash).filter(same_set);
        let first = found.next()?;
        if !in_use(first) {
            return Some(first);
        }
        Some(found.find(|&other| !in_use(other)).unwrap_or(first))
    }

    /// Marks a standing clause as dead; its literals can be read until the next collection.
    pub fn kill(&mut self, clause: Clause) {
        let header = clause as usize;
        let (hash, next) = (self.arena[header + HASH], self.arena[header + NEXT]);
        let before = self.chain(hash).take_while(|&other| other != clause).last();
        match before {
            Some(before) => self.arena[before as usize + NEXT] = next,
            None => {
                let chain = self.chain_index(hash);
                self.chains[chain] = next;
            }
        }
        self.dead += HEADER + self.literals(clause).len();
        self.standing -= 1;
        self.arena[header + SIZE] |= DEAD;
    }

    /// Whether more than half is dead, and enough for a walk of tables of this length.
    pub fn wants_collection(&self, tables: usize) -> bool {
        self.dead > self.arena.len() / 2 && self.dead > tables.max(FEW)
    }

    /// Drops the dead clauses, and tells where the others have gone.
    pub fn collect(&mut self) -> Moves {
        let mut old = std::mem::take(&mut self.arena);
        self.arena.reserve(old.len() - self.dead);
        let mut header = 0;
        while header < old.len() {
            let size = old[header + SIZE];
            let end = header + HEADER + (size & !DEAD) as usize;
            if size & DEAD == 0 {
                let place = self.arena.len() as Clause;
                self.arena.extend_from_slice(&old[header..end]);
                old[header + NEXT] = place;
            }
            header = end;
        }
        self.dead = 0;
        self.chain_all(self.standing.next_power_of_two().max(FEWEST_CHAINS));
        Moves(old)
    }

    fn chain_index(&self, hash: u32) -> usize {
        hash as usize & (self.chains.len() - 1)
    }

    /// The clauses whose sets may have the hash.
    fn chain(&self, hash: u32) -> impl Iterator<Item = Clause> + '_ {
        let known = |clause: Clause| Some(clause).filter(|&clause| clause != NONE);
        let first = known(self.chains[self.chain_index(hash)]);
        std::iter::successors(first, move |&clause| {
            known(self.arena[clause as usize + NEXT])
        })
    }

    /// Puts a clause at the start of its chain.
    fn link(&mut self, clause: Clause) {
        let header = clause as usize;
        let chain = self.chain_index(self.arena[header + HASH]);
        self.arena[header + NEXT] = self.chains[chain];
        self.chains[chain] = clause;
    }

    /// Makes so many chains of the standing clauses.
    fn chain_all(&mut self, count: usize) {
        self.chains = vec![NONE; count];
        let mut header = 0;
        while header < self.arena.len() {
            let clause = header as Clause;
            header += HEADER + self.literals(clause).len();
            if self.stands(clause) {
                self.link(clause);
            }
        }
    }
}
