//! What can be set from outside: the seed of the random tests, `VARMINTFOIL_SEED`, and their rounds, `VARMINTFOIL_ROUNDS`.

use super::Random;

/// The rounds of the longest tests, for which `VARMINTFOIL_ROUNDS` stands; those of the others follow in proportion.
const ROUNDS: usize = 200_000;

/// The number in a variable, if it is set.
fn variable(name: &str) -> Option<usize> {
    let value = std::env::var_os(name)?;
    let number = value.to_str().and_then(|value| value.parse().ok());
    Some(number.unwrap_or_else(|| panic!("{name} is no number: {value:?}")))
}

/// The generator of a test: it starts from the test's own number and from the seed, which is 0 by default.
pub fn random(test: u64) -> Random {
    let seed = variable("VARMINTFOIL_SEED").unwrap_or(0) as u64;
    Random::new(seed.wrapping_mul(1000).wrapping_add(test))
}

/// The rounds of a test that makes so many by default.
pub fn rounds(by_default: usize) -> usize {
    variable("VARMINTFOIL_ROUNDS").map_or(by_default, |rounds| (by_default * rounds / ROUNDS).max(1))
}

/// Are there fewer rounds than by default? Then what comes up seldom may not come up.
pub fn fewer() -> bool {
    rounds(ROUNDS) < ROUNDS
}
