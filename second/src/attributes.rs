//! What create takes besides the pool's length.

use crate::codes::E_PAR;
use crate::kinds::Kinds;
use crate::queue::Order;
use crate::runs::HEADER;

/// Choices of create.
pub const WITHOUT_KINDS: u32 = 0;
pub const WITH_KINDS: u32 = 1;

/// Orders of create.
pub const FIFO: u32 = 0;
pub const BY_PRIORITY: u32 = 1;

/// The numbers given to create, which are kept with the queue. Zeros make the
/// pool of document 01.
#[derive(Clone, Copy, Debug, Default, PartialEq, Eq)]
pub struct Attributes {
    /// The choice: with or without kinds.
    pub kinds: u32,
    /// The greatest request M with kinds, 0 without.
    pub greatest: u32,
    /// The order: FIFO or by priority.
    pub order: u32,
}

impl Attributes {
    /// A FIFO pool with kinds.
    pub fn with_kinds(greatest: u32) -> Attributes {
        Attributes {
            kinds: WITH_KINDS,
            greatest,
            order: FIFO,
        }
    }

    /// A priority pool without kinds.
    pub fn by_priority() -> Attributes {
        Attributes::default().with_order(BY_PRIORITY)
    }

    /// The same but for the order.
    pub fn with_order(self, order: u32) -> Attributes {
        Attributes { order, ..self }
    }

    /// The kinds that a pool of `len` bytes uses, `None` without kinds, or the
    /// refusing code.
    pub fn kinds_in_use(&self, len: u32) -> Result<Option<Kinds>, i32> {
        match (self.kinds, self.greatest) {
            (WITHOUT_KINDS, 0) => Ok(None),
            (WITH_KINDS, greatest) => {
                let kinds = Kinds::up_to(greatest).ok_or(E_PAR)?;
                if kinds.top() + HEADER > len {
                    return Err(E_PAR);
                }
                Ok(Some(kinds))
            }
            _ => Err(E_PAR),
        }
    }

    /// The order of the queue, or the refusing code.
    pub fn queue_order(&self) -> Result<Order, i32> {
        match self.order {
            FIFO => Ok(Order::Fifo),
            BY_PRIORITY => Ok(Order::Priority),
            _ => Err(E_PAR),
        }
    }
}
