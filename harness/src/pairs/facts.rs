//! The facts of 'Earlier, smaller, more', each held against two answers.

use std::fmt::{Display, Formatter};

use second::refusal::{DOES_NOT_FIT, NOT_IN_TIME, NO_ALLOWED_CHAIN};
use second::Ask;

use super::answers::{Answer, Answers, Lent};

/// What the second call of a pair changes, and so which fact it is held to.
#[derive(Clone, Copy, Debug, PartialEq, Eq)]
pub enum Kind {
    /// Asked later: never delivers earlier.
    Later,
    /// A larger file: never delivers earlier.
    Larger,
    /// A later deadline: a route is kept.
    Due,
    /// A further contact: never delivers later.
    Further,
    /// Asked between the ask's time and the last call: not refused, and the
    /// same chain still serves.
    UntilLastCall,
    /// Asked one past the last call: the same chain no longer serves, whether
    /// or not another does.
    PastLastCall,
}

impl Kind {
    pub const COUNT: usize = 6;

    pub const ALL: [Self; Self::COUNT] = [
        Self::Later,
        Self::Larger,
        Self::Due,
        Self::Further,
        Self::UntilLastCall,
        Self::PastLastCall,
    ];

    pub fn name(self) -> &'static str {
        match self {
            Self::Later => "later",
            Self::Larger => "larger",
            Self::Due => "later deadline",
            Self::Further => "further contact",
            Self::UntilLastCall => "until last call",
            Self::PastLastCall => "one past it",
        }
    }
}

/// What became of the first answer.
#[derive(Clone, Copy, Debug, PartialEq, Eq)]
pub enum Outcome {
    /// The same route with the same figures.
    Kept,
    /// The same chain and delivery, and another start, last call or room.
    OtherFigures,
    /// The same delivery by another chain.
    OtherChain,
    /// A route that delivers at another time.
    OtherDelivery,
    /// A route, then a refusal.
    Lost,
    /// A refusal, then a route.
    Gained,
    /// Two refusals.
    Refused,
}

impl Outcome {
    pub const COUNT: usize = 7;

    pub const ALL: [Self; Self::COUNT] = [
        Self::Kept,
        Self::OtherFigures,
        Self::OtherChain,
        Self::OtherDelivery,
        Self::Lost,
        Self::Gained,
        Self::Refused,
    ];

    pub fn name(self) -> &'static str {
        match self {
            Self::Kept => "kept",
            Self::OtherFigures => "figures",
            Self::OtherChain => "chain",
            Self::OtherDelivery => "delivery",
            Self::Lost => "lost",
            Self::Gained => "gained",
            Self::Refused => "refused",
        }
    }

    fn of(first: &Answer, second: &Answer) -> Self {
        match (first, second) {
            (Ok(one), Ok(other)) if one == other => Self::Kept,
            (Ok(one), Ok(other)) if one.figures.delivery != other.figures.delivery => {
                Self::OtherDelivery
            }
            (Ok(one), Ok(other)) if one.chain != other.chain => Self::OtherChain,
            (Ok(_), Ok(_)) => Self::OtherFigures,
            (Ok(_), Err(_)) => Self::Lost,
            (Err(_), Ok(_)) => Self::Gained,
            (Err(_), Err(_)) => Self::Refused,
        }
    }
}

/// The second call of a pair, with all that it is given.
pub struct Pair<'a> {
    pub kind: Kind,
    /// What both calls are lent, unless the second one has a further contact.
    pub lent: &'a Lent,
    pub second_lent: &'a Lent,
    pub ask: Ask,
    pub second_ask: Ask,
}

/// When an answer delivers: the refusals 13 and 14 are later than any time.
#[derive(PartialEq, Eq, PartialOrd, Ord)]
enum When {
    At(u64),
    Never,
}

impl Pair<'_> {
    /// Makes the second call and holds its answer against the first one; what
    /// is not as it must be, said shortly.
    pub fn check(&self, who: &impl Answers, first: &Answer) -> Result<Outcome, String> {
        let second = who.route(self.second_lent, self.second_ask);
        let (before, after) = (delivers(first)?, delivers(&second)?);
        match self.kind {
            Kind::Later | Kind::Larger => must(before <= after, "delivered earlier")?,
            Kind::Further => must(after <= before, "delivered later")?,
            Kind::Due => keeps(first, &second)?,
            Kind::UntilLastCall => {
                must(second.is_ok(), "refused before the last call")?;
                must(before <= after, "delivered earlier")?;
                must(self.serves(who, first)?, "the chain serves no longer")?;
            }
            Kind::PastLastCall => {
                must(before <= after, "delivered earlier")?;
                must(!self.serves(who, first)?, "the chain still serves")?;
            }
        }
        Ok(Outcome::of(first, &second))
    }

    /// Whether the first route's chain carries the second ask in time; where it
    /// does not, it is refused with 22 or 14 and nothing else.
    fn serves(&self, who: &impl Answers, first: &Answer) -> Result<bool, String> {
        let chain = first.as_ref().map_or(&[][..], |best| &best.chain);
        match who.walk(self.lent, self.second_ask, chain) {
            Ok(_) => Ok(true),
            Err(refusal) if [DOES_NOT_FIT, NOT_IN_TIME].contains(&refusal.number) => Ok(false),
            Err(refusal) => Err(format!("walked: refused {}", refusal.number)),
        }
    }
}

/// When an answer delivers; any refusal but 13 and 14 is a fault, since both
/// calls are given what is good.
fn delivers(answer: &Answer) -> Result<When, String> {
    match answer {
        Ok(best) => Ok(When::At(best.figures.delivery)),
        Err(refusal) if [NO_ALLOWED_CHAIN, NOT_IN_TIME].contains(&refusal.number) => {
            Ok(When::Never)
        }
        Err(refusal) => Err(format!("refused {}", refusal.number)),
    }
}

/// A route is kept: its delivery, its start and its chain; its last call and
/// its room are no less.
fn keeps(first: &Answer, second: &Answer) -> Result<(), String> {
    let Ok(first) = first else {
        return Ok(());
    };
    let Ok(second) = second else {
        return Err("turned away".into());
    };
    let (one, other) = (first.figures, second.figures);
    must(one.delivery == other.delivery, "another delivery")?;
    must(one.opens == other.opens, "another start")?;
    must(first.chain == second.chain, "another chain")?;
    must(one.last_call <= other.last_call, "an earlier last call")?;
    must(one.room <= other.room, "less room")
}

fn must(holds: bool, otherwise: &str) -> Result<(), String> {
    match holds {
        true => Ok(()),
        false => Err(otherwise.into()),
    }
}

impl Display for Pair<'_> {
    fn fmt(&self, f: &mut Formatter) -> std::fmt::Result {
        let (one, other) = (self.ask.numbers(), self.second_ask.numbers());
        write!(f, "{}: ask {one:?}, then {other:?}", self.kind.name())
    }
}
