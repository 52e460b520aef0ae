//! Lists of calls to a unit.

use crate::reference::ACCEPTED;
use crate::unit::orders::Order;
use crate::unit::{block_refusal, orders};

/// An order, or a block with the room there is for its output.
#[derive(Clone)]
pub enum Call {
    Order(Order),
    Block { input: Vec<u8>, room: usize },
}

impl Call {
    /// A block with just the room it needs.
    pub fn block(input: Vec<u8>) -> Call {
        let room = input.len();
        Call::Block { input, room }
    }

    /// True where the call isn't "refused for its arguments".
    pub fn is_accepted(&self) -> bool {
        let refusal = match self {
            Call::Order(order) => orders::exact::refusal(order),
            Call::Block { input, room } => block_refusal(true, input.len(), *room),
        };
        refusal == ACCEPTED
    }
}

/// The calls to a unit that begins cleared with this band set.
#[derive(Clone)]
pub struct List {
    pub set: [i32; 30],
    pub calls: Vec<Call>,
}
