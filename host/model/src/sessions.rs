//! Texts of the specification's sessions that several tests use.

/// Session F: a choice of five and the clauses over it.
pub const F: &str = "p cnf 6 7\n1 2 3 4 5 0\n-1 -2 0\n-1 6 0\n-2 6 0\n-3 6 0\n-4 -6 0\n-5 -6 0\n";

/// Session E with literals repeated, and a clause that is left out.
pub const JOINED_E: &str = "p cnf 3 3\n1 1 2 0\n3 -3 0\n-1 3 -1 0\n";

/// A choice of six literals that nothing forbids.
pub const SIX: &str = "p cnf 6 1\n1 2 3 4 5 6 0\n";

/// A choice of five, two of its pairs in two copies each.
pub const COPIES: &str =
    "p cnf 5 9\n1 2 3 4 5 0\n-1 -2 0\n-1 -3 0\n-2 -1 0\n-3 -1 0\n-4 0\n-4 0\n-5 0\n-5 0\n";

/// Three clauses that two clashes join to a choice of six.
pub const CHAIN: &str = "p cnf 8 3\n1 2 3 0\n-3 4 5 0\n-5 6 7 8 0\n";
