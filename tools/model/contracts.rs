//! What a contract is, and what it answers under a ceiling.

/// A contract with its figures. A pair may hold pairs, though no house here takes such a one.
#[derive(Clone, Debug, PartialEq)]
pub enum Contract {
    Call(u64),
    Put(u64),
    Rising { low: u64, high: u64 },
    Falling { low: u64, high: u64 },
    Pair(Box<Contract>, Box<Contract>),
}

/// Why a contract is not valid, by the rulebook's numbers.
#[derive(Clone, Copy, Debug, PartialEq)]
pub struct Fault {
    pub reason: u64,
    pub place: u64,
}

const STRIKE: u64 = 1;
const EDGES: u64 = 2;
const TOO_MANY_BREAKPOINTS: u64 = 3;
const TOO_MUCH_COLLATERAL: u64 = 4;

const WHOLE: u64 = 0;
const FIRST: u64 = 1;
const SECOND: u64 = 2;

const MOST_BREAKPOINTS: usize = 8;
const MOST_COLLATERAL: i128 = 1_000_000;

impl Contract {
    pub fn is_option(&self) -> bool {
        matches!(self, Contract::Call(_) | Contract::Put(_))
    }

    pub fn is_spread(&self) -> bool {
        matches!(self, Contract::Rising { .. } | Contract::Falling { .. })
    }

    pub fn is_pair_of_options(&self) -> bool {
        matches!(self, Contract::Pair(a, b) if a.is_option() && b.is_option())
    }

    /// The first fault that applies, or nothing where the contract is valid.
    pub fn fault(&self, ceiling: u64) -> Option<Fault> {
        match self {
            Contract::Call(strike) | Contract::Put(strike) => {
                fault_unless(1 <= *strike && *strike <= ceiling, STRIKE)
            }
            Contract::Rising { low, high } | Contract::Falling { low, high } => {
                fault_unless(low < high && *high <= ceiling, EDGES)
            }
            Contract::Pair(first, second) => pair_fault(first, second, ceiling),
        }
    }

    fn is_valid(&self, ceiling: u64) -> bool {
        self.fault(ceiling).is_none()
    }

    /// What one lot pays: 0 above the ceiling, and 0 for a contract that is not valid.
    pub fn payoff(&self, ceiling: u64, price: u64) -> i128 {
        if price > ceiling || !self.is_valid(ceiling) {
            return 0;
        }
        let price_at = i128::from(price);
        match self {
            Contract::Call(strike) => (price_at - i128::from(*strike)).max(0),
            Contract::Put(strike) => (i128::from(*strike) - price_at).max(0),
            Contract::Rising { low, high } => (price_at - i128::from(*low))
                .max(0)
                .min(i128::from(high - low)),
            Contract::Falling { low, high } => (i128::from(*high) - price_at)
                .max(0)
                .min(i128::from(high - low)),
            Contract::Pair(first, second) => {
                first.payoff(ceiling, price) + second.payoff(ceiling, price)
            }
        }
    }

    /// What the seller of one lot must have in hand.
    pub fn collateral(&self, ceiling: u64) -> i128 {
        if !self.is_valid(ceiling) {
            return 0;
        }
        match self {
            Contract::Call(strike) => i128::from(ceiling - strike),
            Contract::Put(strike) => i128::from(*strike),
            Contract::Rising { low, high } | Contract::Falling { low, high } => {
                i128::from(high - low)
            }
            Contract::Pair(first, second) => first.collateral(ceiling) + second.collateral(ceiling),
        }
    }

    /// The prices where the payoff may change its slope; none for a contract that is not valid.
    pub fn breakpoints(&self, ceiling: u64) -> Vec<u64> {
        if !self.is_valid(ceiling) {
            return Vec::new();
        }
        match self {
            Contract::Call(strike) | Contract::Put(strike) => vec![*strike],
            Contract::Rising { low, high } | Contract::Falling { low, high } => vec![*low, *high],
            Contract::Pair(first, second) => {
                [first.breakpoints(ceiling), second.breakpoints(ceiling)].concat()
            }
        }
    }
}

fn fault_unless(valid: bool, reason: u64) -> Option<Fault> {
    if valid {
        None
    } else {
        Some(Fault {
            reason,
            place: WHOLE,
        })
    }
}

/// A pair puts its own place on the fault of a part, so the place that is told is the outermost's.
fn pair_fault(first: &Contract, second: &Contract, ceiling: u64) -> Option<Fault> {
    if let Some(fault) = first.fault(ceiling) {
        return Some(Fault {
            reason: fault.reason,
            place: FIRST,
        });
    }
    if let Some(fault) = second.fault(ceiling) {
        return Some(Fault {
            reason: fault.reason,
            place: SECOND,
        });
    }
    let breakpoints = first.breakpoints(ceiling).len() + second.breakpoints(ceiling).len();
    if breakpoints > MOST_BREAKPOINTS {
        return fault_unless(false, TOO_MANY_BREAKPOINTS);
    }
    let collateral = first.collateral(ceiling) + second.collateral(ceiling);
    fault_unless(collateral <= MOST_COLLATERAL, TOO_MUCH_COLLATERAL)
}
