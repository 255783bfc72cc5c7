//! The calls of docs/REFERENCE.md, section 4, over slices that the caller lends. They are safe for
//! slices of any length and content: one that is too short is refused.
//!
//! A call that is refused changes no slice. Places beyond those that a call is said to write keep their
//! content. A workspace needs (K+1)(n+16) + 16n + 64 places, and all of it is 0 after a result.

use crate::raw::{self, Reply, WeekReply, WeekState};

/// The mark. In the place of a cost, which it may have in edition 2 only: the arc is closed in that
/// column. In the place of a label: the goal can't be reached from the node.
pub const MARK: u32 = u32::MAX;

/// The version of the library that is linked: major times 1,000,000, plus minor times 1,000, plus patch.
pub fn version() -> u32 {
    // SAFETY: the function takes nothing and gives a number.
    unsafe { raw::vihrolom_version() }
}

/// Check: is this an image? Values: n, m, k, edition.
pub fn check(image: &[u8]) -> Reply {
    // SAFETY: pointer and length are those of a slice that is borrowed for the call.
    unsafe { raw::vihrolom_check(image.as_ptr(), image.len()) }
}

/// Label: writes for each node the least cost to the goal, or [`MARK`].
pub fn label(image: &[u8], column: u32, goal: u32, labels: &mut [u32]) -> Reply {
    // SAFETY: each pointer and length are those of a slice that is borrowed for the call; the one that
    // is written is borrowed mutably, so that it overlaps no other.
    unsafe {
        raw::vihrolom_label(
            image.as_ptr(),
            image.len(),
            column,
            goal,
            labels.as_mut_ptr(),
            labels.len(),
        )
    }
}

/// Shortest: writes the first path of the ranking order; needs n places. Values: length, cost.
pub fn shortest(image: &[u8], column: u32, start: u32, goal: u32, path: &mut [u16]) -> Reply {
    // SAFETY: each pointer and length are those of a slice that is borrowed for the call; the one that
    // is written is borrowed mutably, so that it overlaps no other.
    unsafe {
        raw::vihrolom_shortest(
            image.as_ptr(),
            image.len(),
            column,
            start,
            goal,
            path.as_mut_ptr(),
            path.len(),
        )
    }
}

/// Regret of a node list. Values: figure, worst column.
pub fn regret(image: &[u8], start: u32, goal: u32, nodes: &[u16]) -> Reply {
    // SAFETY: each pointer and length are those of a slice that is borrowed for the call.
    unsafe {
        raw::vihrolom_regret(
            image.as_ptr(),
            image.len(),
            start,
            goal,
            nodes.as_ptr(),
            nodes.len(),
        )
    }
}

/// Rank: writes the first K paths, one a row of n places filled up with 0, and their costs; needs
/// K times n places and K. Value: count.
#[allow(clippy::too_many_arguments)] // they are those of the C function
pub fn rank(
    image: &[u8],
    column: u32,
    start: u32,
    goal: u32,
    k: u32,
    rows: &mut [u16],
    costs: &mut [u32],
    work: &mut [u32],
) -> Reply {
    // SAFETY: each pointer and length are those of a slice that is borrowed for the call; those that
    // are written are borrowed mutably, so that they overlap no other.
    unsafe {
        raw::vihrolom_rank(
            image.as_ptr(),
            image.len(),
            column,
            start,
            goal,
            k,
            rows.as_mut_ptr(),
            rows.len(),
            costs.as_mut_ptr(),
            costs.len(),
            work.as_mut_ptr(),
            work.len(),
        )
    }
}

/// Robust: writes the path of least greatest regret among those counted; needs n places. Values:
/// length, figure, worst column, count, state (1 settled, 2 open), floor (0 if settled).
pub fn robust(
    image: &[u8],
    column: u32,
    start: u32,
    goal: u32,
    k: u32,
    path: &mut [u16],
    work: &mut [u32],
) -> Reply {
    // SAFETY: each pointer and length are those of a slice that is borrowed for the call; those that
    // are written are borrowed mutably, so that they overlap no other.
    unsafe {
        raw::vihrolom_robust(
            image.as_ptr(),
            image.len(),
            column,
            start,
            goal,
            k,
            path.as_mut_ptr(),
            path.len(),
            work.as_mut_ptr(),
            work.len(),
        )
    }
}

/// Search: writes the first by node list of all paths with the least greatest regret; needs n places. Values:
/// length, figure, worst column, arcs tried, which are at most `limit`.
pub fn search(image: &[u8], start: u32, goal: u32, limit: u32, path: &mut [u16]) -> Reply {
    // SAFETY: each pointer and length are those of a slice that is borrowed for the call; the one that
    // is written is borrowed mutably, so that it overlaps no other.
    unsafe {
        raw::vihrolom_search(
            image.as_ptr(),
            image.len(),
            start,
            goal,
            limit,
            path.as_mut_ptr(),
            path.len(),
        )
    }
}

/// Build: writes the image, of edition 1 or 2, of a network of n nodes and k columns, from 2m node
/// numbers and mk costs; needs 24 + 4m + 4mk bytes. Value: length.
pub fn build(
    edition: u32,
    n: u32,
    k: u32,
    nodes: &[u16],
    costs: &[u32],
    image: &mut [u8],
) -> Reply {
    // SAFETY: each pointer and length are those of a slice that is borrowed for the call; the one that
    // is written is borrowed mutably, so that it overlaps no other.
    unsafe {
        raw::vihrolom_build(
            edition,
            n,
            k,
            nodes.as_ptr(),
            nodes.len(),
            costs.as_ptr(),
            costs.len(),
            image.as_mut_ptr(),
            image.len(),
        )
    }
}

/// Unpack: writes 2m node numbers and mk costs. Values: n, m, k, edition.
pub fn unpack(image: &[u8], nodes: &mut [u16], costs: &mut [u32]) -> Reply {
    // SAFETY: each pointer and length are those of a slice that is borrowed for the call; those that
    // are written are borrowed mutably, so that they overlap no other.
    unsafe {
        raw::vihrolom_unpack(
            image.as_ptr(),
            image.len(),
            nodes.as_mut_ptr(),
            nodes.len(),
            costs.as_mut_ptr(),
            costs.len(),
        )
    }
}

/// Find: looks for the arc from a node to another. Values: found (1 or 0), index (0 if there is none),
/// looks.
pub fn find(image: &[u8], tail: u32, head: u32) -> Reply {
    // SAFETY: pointer and length are those of a slice that is borrowed for the call.
    unsafe { raw::vihrolom_find(image.as_ptr(), image.len(), tail, head) }
}

/// Update: writes the costs of a list of records, four numbers each (arc index, column, cost, stamp), over
/// those of the image. For one arc and column the greatest stamp counts, and of equal stamps the later.
pub fn update(image: &mut [u8], records: &[u32]) -> Reply {
    // SAFETY: each pointer and length are those of a slice that is borrowed for the call; the one that
    // is written is borrowed mutably, so that it overlaps no other.
    unsafe {
        raw::vihrolom_update(
            image.as_mut_ptr(),
            image.len(),
            records.as_ptr(),
            records.len(),
        )
    }
}

/// Fresh: the state of a week in which every road is open, with Robust's answer.
pub fn week_fresh(
    image: &[u8],
    column: u32,
    start: u32,
    goal: u32,
    k: u32,
    work: &mut [u32],
) -> WeekReply {
    // SAFETY: each pointer and length are those of a slice that is borrowed for the call; the one that
    // is written is borrowed mutably, so that it overlaps no other.
    unsafe {
        raw::vihrolom_week_fresh(
            image.as_ptr(),
            image.len(),
            column,
            start,
            goal,
            k,
            work.as_mut_ptr(),
            work.len(),
        )
    }
}

/// Event: the state after an arc is closed, or opened, in every column. Any state may be given.
#[allow(clippy::too_many_arguments)] // they are those of the C function
pub fn week_event(
    image: &[u8],
    column: u32,
    start: u32,
    goal: u32,
    k: u32,
    week: WeekState,
    arc: u32,
    close: bool,
    work: &mut [u32],
) -> WeekReply {
    // SAFETY: each pointer and length are those of a slice that is borrowed for the call; the one that
    // is written is borrowed mutably, so that it overlaps no other.
    unsafe {
        raw::vihrolom_week_event(
            image.as_ptr(),
            image.len(),
            column,
            start,
            goal,
            k,
            week,
            arc,
            close.into(),
            work.as_mut_ptr(),
            work.len(),
        )
    }
}
