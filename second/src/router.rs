//! What every router answers: the best chain for an ask, with its figures.

use crate::ask::GoodAsk;
use crate::plan::Plan;
use crate::refusal::Refusal;
use crate::timing::Figures;
use crate::units::ContactNo;

/// The best chain and its figures.
#[derive(Clone, Debug, PartialEq, Eq)]
pub struct Best {
    pub figures: Figures,
    pub chain: Vec<ContactNo>,
}

/// A way to find best chains in a plan.
pub trait Router {
    /// The router of a plan on which nothing is booked.
    fn prepare(plan: &Plan) -> Self;

    /// The best chain, or refusal 13 or 14.
    fn best(&self, ask: &GoodAsk) -> Result<Best, Refusal>;
}
