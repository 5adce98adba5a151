"""The module `trivial` of a bench's small program in Rattle: a work of trivial proofs, for the core and for the board."""

MODULE = """//! A work of trivial proofs.
ghost use Rattle.std.specs.Prelude.{◌≡◌};

use pure_core::{Core, Node, Standing, Turn, Work};
use pure_watch::Watch;
use std::alloc::{AllocError, Global};
use std::sync::Arc;

/// Theories of so many lemmas each.
#[derive(Drop)]
pub struct Trivial {
    pub shape: Vec<Node>,
    pub lemmas: u32,
}

/// How many lemmas are still to be forked.
#[derive(Drop)]
pub struct Left {
    lemmas: u32,
}

/// A proof of one step.
#[derive(Drop)]
pub struct Step;

impl Work for Trivial {
    ghost use Rattle.std.specs.Prelude.{ℕ, List, Bool, false};

    type Goal = u32;

    type Closed = u32;

    type Outcome = u32;

    type Run = Left;

    type Proving = Step;

    ghost shape = { λ s. s.shape.items };

    ghost forks = { λ s i n c g. Unit {0} };

    ghost closes = { λ s i n c. Unit {0} };

    ghost may = { λ s g o. Unit {0} };

    ghost faults = { λ s o. false };

    ghost runs = { λ s i n r. Unit {0} };

    ghost turns_left = { λ r. r.lemmas };

    ghost proves = { λ s g p. Unit {0} };

    ghost steps_left = { λ p. 0 };

    fn begin(&self, _theory: u32, _parents: &[Arc<u32>]) -> Result<Left, AllocError> {
        Ok(Left { lemmas: self.lemmas })
    }

    fn command(&self, run: &mut Left) -> Result<Turn<u32, u32>, AllocError> {
        if run.lemmas == 0 {
            return Ok(Turn::Closed { closed: 7 });
        }
        run.lemmas -= 1;
        Ok(Turn::Forked { command: run.lemmas, goal: run.lemmas })
    }

    fn start(&self, _goal: &u32) -> Result<Step, AllocError> {
        Ok(Step)
    }

    fn advance<V: Watch>(
        &self,
        goal: &u32,
        _proving: &mut Step,
        _watch: &V,
    ) -> Result<Option<u32>, AllocError> {
        Ok(Some(*goal))
    }

    fn is_fault(&self, _outcome: &u32) -> bool {
        false
    }
}

/// Theories without parents.
pub fn shape(alloc: Global, theories: u32) -> Result<Vec<Node>, AllocError> {
    let mut shape = Vec::new(alloc);
    for _ in 0..theories {
        shape.push(Node { parents: Vec::new(alloc) })?;
    }
    Ok(shape)
}

/// How many promises are settled.
pub fn settled(core: &Core<Trivial>) -> usize {
    let mut count = 0usize;
    for number in 0..core.count() {
        if let Standing::Settled { .. } = &core.promise(number).standing {
            count = count.wrapping_add(1);
        }
    }
    count
}
"""
