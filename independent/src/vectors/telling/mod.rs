//! Inputs that tell right from wrong where the mixture of a kind has few that do. They stand at its end.

mod editions;
mod lanes;
mod limits;
mod patterns;
mod signs;

use super::{shown, Kind};
use crate::rng::Rng;

/// The telling inputs of a kind; most kinds have none.
pub(super) fn inputs(kind: Kind, seed: u64) -> Vec<Vec<u8>> {
    if kind == Kind::Shown {
        return shown::telling();
    }
    let mut inputs = patterns::inputs(kind, &mut Rng::new(seed));
    inputs.extend(limits::inputs(kind, &mut Rng::new(seed)));
    inputs.extend(lanes::inputs(kind, &mut Rng::new(seed)));
    inputs.extend(editions::inputs(kind, &mut Rng::new(seed)));
    inputs.extend(signs::inputs(kind, &mut Rng::new(seed)));
    inputs
}
