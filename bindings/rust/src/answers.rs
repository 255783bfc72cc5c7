//! What the calls give.

use std::fmt;

/// A loopless path with its cost in the column that was asked for.
#[derive(Clone, Debug, PartialEq, Eq, Hash)]
pub struct Path {
    /// The nodes, from start to goal.
    pub nodes: Vec<u32>,
    /// The sum of the costs of its arcs.
    pub cost: u32,
}

/// The greatest regret of a path.
#[derive(Clone, Copy, Debug, PartialEq, Eq, Hash)]
pub struct Regret {
    /// The path's largest deviation over all columns.
    pub figure: u32,
    /// The lowest-numbered column that has it.
    pub worst_column: u32,
}

/// Whether the stopping rule was met.
#[derive(Clone, Copy, Debug, PartialEq, Eq, Hash)]
pub enum State {
    /// It was: no path at all has a smaller figure.
    Settled,
    /// It needs more than K paths: the least figure of all paths lies between the floor and the
    /// figure of the route.
    Open {
        /// The deviation of the first path that was not counted, in the column that ranks.
        floor: u32,
    },
}

/// The route of least greatest regret among the ranked paths that were counted.
#[derive(Clone, Debug, PartialEq, Eq, Hash)]
pub struct Choice {
    /// The nodes of the route, from start to goal.
    pub route: Vec<u32>,
    /// Its greatest regret.
    pub regret: Regret,
    /// How many ranked paths were counted: all that the stopping rule needs, or K if it needs more.
    pub count: u32,
    /// Whether the answer is settled.
    pub state: State,
}

impl Choice {
    /// The choice that the core tells by its route and by figure, worst column, count, state and floor.
    pub(crate) fn of(route: &[u16], numbers: [u32; 5]) -> Choice {
        let [figure, worst_column, count, state, floor] = numbers;
        Choice {
            route: route.iter().copied().map(u32::from).collect(),
            regret: Regret {
                figure,
                worst_column,
            },
            count,
            state: if state == 1 {
                State::Settled
            } else {
                State::Open { floor }
            },
        }
    }
}

/// `settled`, or `open floor F`.
impl fmt::Display for State {
    fn fmt(&self, f: &mut fmt::Formatter<'_>) -> fmt::Result {
        match self {
            State::Settled => f.write_str("settled"),
            State::Open { floor } => write!(f, "open floor {floor}"),
        }
    }
}

/// The three lines of the sheet, without the last newline.
impl fmt::Display for Choice {
    fn fmt(&self, f: &mut fmt::Formatter<'_>) -> fmt::Result {
        f.write_str("route")?;
        for node in &self.route {
            write!(f, " {node}")?;
        }
        let Regret {
            figure,
            worst_column,
        } = self.regret;
        write!(f, "\nregret {figure} column {worst_column}")?;
        write!(f, "\nranked {} {}", self.count, self.state)
    }
}

/// The route of least greatest regret of all, found depth first.
#[derive(Clone, Debug, PartialEq, Eq, Hash)]
pub struct Search {
    /// The nodes of the route, from start to goal: of routes with equal figures the first by node list.
    pub route: Vec<u32>,
    /// Its greatest regret, which is that of every settled [`Choice`] between the same nodes.
    pub regret: Regret,
    /// How many arcs were tried.
    pub tried: u32,
}

/// What a search for an arc found.
#[derive(Clone, Copy, Debug, PartialEq, Eq, Hash)]
pub struct Found {
    /// The arc's index, or `None` if there is no such arc.
    pub index: Option<u32>,
    /// How many arcs were looked at, at most 10.
    pub looks: u32,
}

/// What a van tells of one arc in one column.
#[derive(Clone, Copy, Debug, PartialEq, Eq, Hash)]
pub struct Record {
    /// The arc's index, from 0.
    pub arc: u32,
    /// The column, from 1.
    pub column: u32,
    /// The cost, or `None`, which closes the arc in that column.
    pub cost: Option<u32>,
    /// The stamp: for one arc and column the greatest counts, and of equal ones the later.
    pub stamp: u32,
}
