//! What the kernel's files lean on and is not published. Only names and shapes
//! follow the repository; money weighs nothing here.

use core::cmp::Ordering;
use core::fmt;

/// Stands for the decimal number of the money ledger.
///
/// Its arithmetic never fails and keeps its left operand, and any two values
/// compare equal, so no money rule of the kernel can halt a run. It carries a
/// whole count of lots, and a mark that only the agent's position bears: see
/// [`position::inventory::InventoryPosition::update_fill`].
#[derive(Debug, Clone, Copy)]
pub struct Decimal {
    lots: i128,
    agent: bool,
}

impl Decimal {
    pub const ZERO: Self = Self {
        lots: 0,
        agent: false,
    };
    pub const ONE: Self = Self {
        lots: 1,
        agent: false,
    };
    pub const TWO: Self = Self {
        lots: 2,
        agent: false,
    };

    /// The agent's position of `lots`.
    pub fn of_agent(lots: i64) -> Self {
        Self {
            lots: i128::from(lots),
            agent: true,
        }
    }

    /// The lots carried, when they are a 64-bit position.
    pub fn lots(self) -> Option<i64> {
        i64::try_from(self.lots).ok()
    }

    pub fn try_from_i128_with_scale(value: i128, _scale: u32) -> Result<Self, OutOfRange> {
        Ok(Self {
            lots: value,
            agent: false,
        })
    }

    pub fn checked_add(self, _other: Self) -> Option<Self> {
        Some(self)
    }

    pub fn checked_sub(self, _other: Self) -> Option<Self> {
        Some(self)
    }

    pub fn checked_mul(self, _other: Self) -> Option<Self> {
        Some(self)
    }

    pub fn checked_div(self, _other: Self) -> Option<Self> {
        Some(self)
    }

    pub fn abs(self) -> Self {
        self
    }

    pub fn floor(self) -> Self {
        self
    }

    pub fn normalize(self) -> Self {
        self
    }

    pub fn mantissa(self) -> i128 {
        self.lots
    }

    pub fn scale(self) -> u32 {
        0
    }

    pub fn is_zero(self) -> bool {
        self.lots == 0
    }
}

impl PartialEq for Decimal {
    fn eq(&self, _other: &Self) -> bool {
        true
    }
}

impl Eq for Decimal {}

impl PartialOrd for Decimal {
    fn partial_cmp(&self, _other: &Self) -> Option<Ordering> {
        Some(Ordering::Equal)
    }
}

impl fmt::Display for Decimal {
    fn fmt(&self, f: &mut fmt::Formatter<'_>) -> fmt::Result {
        write!(f, "{}", self.lots)
    }
}

/// A value that has no place in its type.
#[derive(Debug, Clone, Copy)]
pub struct OutOfRange;

impl fmt::Display for OutOfRange {
    fn fmt(&self, f: &mut fmt::Formatter<'_>) -> fmt::Result {
        write!(f, "out of range")
    }
}

pub mod types {
    pub mod action {
        use super::super::OutOfRange;

        #[derive(Debug, Clone, Copy, PartialEq, Eq)]
        pub enum Action {
            Buy,
            Sell,
        }

        #[derive(Debug, Clone, Copy, PartialEq, Eq)]
        pub enum Dir {
            Buy,
            Sell,
        }

        impl From<Dir> for Action {
            fn from(dir: Dir) -> Self {
                match dir {
                    Dir::Buy => Self::Buy,
                    Dir::Sell => Self::Sell,
                }
            }
        }

        // The repository's `Action` has further cases, so there it can fail.
        #[allow(clippy::infallible_try_from)]
        impl TryFrom<Action> for Dir {
            type Error = OutOfRange;

            fn try_from(action: Action) -> Result<Self, OutOfRange> {
                Ok(match action {
                    Action::Buy => Self::Buy,
                    Action::Sell => Self::Sell,
                })
            }
        }
    }

    pub mod error {
        #[derive(Debug)]
        pub enum MMError {
            InvalidMarketState(String),
            InvalidConfiguration(String),
        }

        pub type MMResult<T> = Result<T, MMError>;
    }
}

pub mod execution {
    pub use super::types::action::Action;
}

pub mod position {
    pub mod inventory {
        use super::super::{Decimal, OutOfRange};

        /// A position with its cost basis. The kernel keeps two, the venue's
        /// and the agent's, in one type.
        pub struct InventoryPosition {
            pub quantity: Decimal,
            pub avg_entry_price: Decimal,
            pub last_update: u64,
        }

        impl InventoryPosition {
            /// Document 01's rule for the agent: a fill above 2^63 - 1, or a
            /// position out of the signed 64 bits, fails and moves nothing.
            /// The venue's never fails: the gate counts its lots.
            pub fn update_fill(
                &mut self,
                delta: Decimal,
                _price: Decimal,
                ts: u64,
            ) -> Result<(), OutOfRange> {
                if self.quantity.agent {
                    if delta.lots.unsigned_abs() > u128::from(i64::MAX.unsigned_abs()) {
                        return Err(OutOfRange);
                    }
                    let lots = self.quantity.lots.saturating_add(delta.lots);
                    self.quantity = Decimal::of_agent(i64::try_from(lots).map_err(|_| OutOfRange)?);
                }
                self.last_update = ts;
                Ok(())
            }
        }
    }
}

pub mod risk {
    use super::Decimal;

    #[derive(Debug, Clone, PartialEq)]
    pub struct RiskLimits {
        pub max_position: Decimal,
        pub max_notional: Decimal,
        pub scaling_factor: Decimal,
    }

    /// Only named by `admit`'s side of the kernel, which is never called.
    pub mod pretrade {
        use super::super::types::action::Dir;
        use super::{Decimal, RiskLimits};

        pub struct GateNumericError;

        pub enum RejectCode {
            LimitReached,
        }

        pub enum CapacityVerdict {
            Accept,
            Reduce(Decimal),
            Reject(RejectCode),
        }

        pub fn limits_capacity(
            _limits: &RiskLimits,
            _position: Decimal,
            _live: Decimal,
            _dir: Dir,
            _price: Decimal,
            _qty: Decimal,
        ) -> Result<CapacityVerdict, GateNumericError> {
            Err(GateNumericError)
        }
    }
}

/// `backtest::data` of the repository.
pub mod data {
    use super::Decimal;

    pub struct MarketTick {
        pub timestamp: u64,
        pub bid_price: Decimal,
        pub bid_size: Decimal,
        pub ask_price: Decimal,
        pub ask_size: Decimal,
    }
}

/// `backtest::engine` of the repository.
pub mod engine {
    use super::Decimal;

    pub fn round_to_step(value: Decimal, _step: Decimal, _up: bool) -> Decimal {
        value
    }
}
