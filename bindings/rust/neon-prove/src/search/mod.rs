//! A search for refutations of a literal of a graph: sweeping over a SAT solver. Nothing here is believed: the library checks each refutation.
mod cone;
mod learn;
mod order;
mod propagate;
#[cfg(test)]
mod reference;
mod sat;
mod simulate;
mod steps;
mod sweep;
#[cfg(test)]
mod tests;

pub use cone::FIRST_GATE;
#[cfg(test)]
use cone::Literal;
pub use sweep::{Found, Limits, Sweeping, search};
