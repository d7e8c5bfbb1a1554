//! Random small formulas.

use model::encoding::Encoding;
use model::generator::{cut_apart, noise, planned, varied, Joined, Random};
use model::{Arrangement, Form, Settings};
use std::ops::Range;

pub const WAYS: [(Form, Arrangement); 4] = [
    (Form::Counter, Arrangement::AsListed),
    (Form::Counter, Arrangement::Alignment),
    (Form::Order, Arrangement::AsListed),
    (Form::Order, Arrangement::Alignment),
];

/// A formula, and one run on it.
pub struct Drawn {
    pub joined: Joined,
    pub settings: Settings,
    pub encoding: Encoding,
}

/// The drawn formulas of the seeds, each in one of the ways and with one of the steps.
pub fn for_each_drawn(
    seeds: Range<u64>,
    draw: impl Fn(&mut Random) -> Joined,
    steps: &[u32],
    mut visit: impl FnMut(&Drawn, &mut Random),
) {
    for seed in seeds {
        let mut random = Random::new(seed);
        let joined = draw(&mut random);
        let (form, arrangement) = *random.one_of(&WAYS);
        let settings = Settings {
            step: steps[seed as usize % steps.len()],
            ..Settings::new(form, arrangement)
        };
        let encoding = Encoding::run(&joined.formula, settings);
        let drawn = Drawn {
            joined,
            settings,
            encoding,
        };
        visit(&drawn, &mut random);
    }
}

/// Half of the formulas have a choice cut apart, with up to three variables more.
pub fn drawn_cut(random: &mut Random, variables: (usize, usize)) -> Joined {
    let variable_count = random.between(variables.0, variables.1);
    let clause_limit = random.between(2, 26);
    let mut formula = planned(random, variable_count, clause_limit);
    if random.chance(50) {
        formula = cut_apart(random, formula);
    }
    varied(random, formula, 50, 40)
}

pub fn drawn(random: &mut Random, variables: (usize, usize)) -> Joined {
    let variable_count = random.between(variables.0, variables.1);
    let clause_limit = random.between(2, 26);
    let formula = if random.chance(10) {
        noise(random, variable_count, clause_limit)
    } else {
        planned(random, variable_count, clause_limit)
    };
    varied(random, formula, 50, 40)
}
