//! A week in which roads close and reopen.

use crate::raw::WeekState;
use crate::{calls, Choice, Network, Refusal};

/// A week of one network, column, start, goal and K: which roads are closed, and Robust's answer on the
/// network without them. [`Network::week`] begins one, with every road open.
///
/// An arc is named by its index among [`Network::arcs`]. An event that is refused changes nothing.
#[derive(Clone, Debug, PartialEq, Eq)]
pub struct Week<'a> {
    network: &'a Network,
    column: u32,
    start: u32,
    goal: u32,
    k: u32,
    state: WeekState,
    closed_roads: u32,
}

impl<'a> Week<'a> {
    /// The length of a state in bytes.
    pub const BYTES: usize = 552;

    pub(crate) fn new(
        network: &'a Network,
        column: u32,
        start: u32,
        goal: u32,
        k: u32,
    ) -> Result<Week<'a>, Refusal> {
        let mut work = network.workspace(k);
        let reply = calls::week_fresh(network.image(), column, start, goal, k, &mut work);
        let (state, closed_roads) = reply.values()?;
        Ok(Week {
            network,
            column,
            start,
            goal,
            k,
            state,
            closed_roads,
        })
    }

    /// The week with a state that [`Week::to_bytes`] gave, for the same network, column, start, goal and K.
    ///
    /// Any bytes are a state, and are read as they are: the answer of one that was made otherwise, or for
    /// another question, is as it says until an event has Robust run again.
    pub fn from_bytes(
        bytes: &[u8; Week::BYTES],
        network: &'a Network,
        column: u32,
        start: u32,
        goal: u32,
        k: u32,
    ) -> Result<Week<'a>, Refusal> {
        let mut week = Week::new(network, column, start, goal, k)?;
        week.state = state_of(bytes);
        if !network.arcs().is_empty() {
            // An event that changes nothing: it tells how many roads are closed.
            week.follow(0, week.is_closed(0))?;
        }
        Ok(week)
    }

    /// The state, to be saved: the bytes of the C struct, with the lowest of a number first.
    pub fn to_bytes(&self) -> [u8; Week::BYTES] {
        let WeekState {
            closed,
            route,
            state,
            length,
            figure,
            worst,
            count,
            floor,
        } = self.state;
        let words = closed.iter().flat_map(|word| word.to_le_bytes());
        let nodes = route.iter().flat_map(|node| node.to_le_bytes());
        let numbers = [state, length, figure, worst, count, floor];
        let numbers = numbers.iter().flat_map(|number| number.to_le_bytes());
        let mut bytes = [0; Week::BYTES];
        for (place, byte) in bytes.iter_mut().zip(words.chain(nodes).chain(numbers)) {
            *place = byte;
        }
        bytes
    }

    /// Closes an arc in every column.
    pub fn close(&mut self, arc: u32) -> Result<(), Refusal> {
        self.follow(arc, true)
    }

    /// Opens an arc.
    pub fn reopen(&mut self, arc: u32) -> Result<(), Refusal> {
        self.follow(arc, false)
    }

    /// Robust's answer now, or `None` if no path is left. Its count is that of the last full run: an
    /// answer that an event leaves as it is, is not found anew.
    pub fn answer(&self) -> Option<Choice> {
        let week = &self.state;
        let route = &week.route[..week.route.len().min(week.length as usize)];
        let numbers = [week.figure, week.worst, week.count, week.state, week.floor];
        matches!(week.state, 1 | 2).then(|| Choice::of(route, numbers))
    }

    /// How many roads are closed.
    pub fn closed_roads(&self) -> u32 {
        self.closed_roads
    }

    /// Whether an arc is closed.
    pub fn is_closed(&self, arc: u32) -> bool {
        let arc = arc as usize;
        arc < self.network.arcs().len() && self.state.closed[arc / 64] >> (arc % 64) & 1 == 1
    }

    /// Takes in the state after an event.
    fn follow(&mut self, arc: u32, close: bool) -> Result<(), Refusal> {
        let Week {
            network,
            column,
            start,
            goal,
            k,
            state,
            ..
        } = *self;
        let (image, mut work) = (network.image(), network.workspace(k));
        let reply = calls::week_event(image, column, start, goal, k, state, arc, close, &mut work);
        (self.state, self.closed_roads) = reply.values()?;
        Ok(())
    }
}

/// The state that bytes hold.
fn state_of(bytes: &[u8; Week::BYTES]) -> WeekState {
    let number = |at: usize, width: usize| {
        let bytes = bytes[at..at + width].iter().rev();
        bytes.fold(0, |number: u64, &byte| number << 8 | u64::from(byte))
    };
    let [state, length, figure, worst, count, floor] =
        [0, 1, 2, 3, 4, 5].map(|i| number(528 + 4 * i, 4) as u32);
    WeekState {
        closed: std::array::from_fn(|i| number(8 * i, 8)),
        route: std::array::from_fn(|i| number(128 + 2 * i, 2) as u16),
        state,
        length,
        figure,
        worst,
        count,
        floor,
    }
}
