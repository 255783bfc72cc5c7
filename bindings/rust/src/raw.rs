//! The C functions of the proved core, as the static library exports them.
//!
//! A slice passes as a pointer and a length in elements. A function asks nothing of its caller but that
//! its slices are what they say: the pointer is not null, also where the length is 0, so many elements
//! lie behind it, and one that is written overlaps no other. It reads and writes only inside them, keeps
//! no pointer, and refuses whatever the refusal table refuses. The safe form is [`crate::calls`].

use crate::Refusal;

/// The answer of a call: eight numbers, returned by value. Those that a call doesn't use are 0.
#[repr(C)]
#[derive(Clone, Copy, Debug, Default, PartialEq, Eq)]
pub struct Reply {
    /// 0 for a result, else the number of the refusal.
    pub refusal: u32,
    /// The place of the refusal, 0 if it names none.
    pub place: u32,
    /// The first value of a result.
    pub v0: u32,
    /// The second value.
    pub v1: u32,
    /// The third value.
    pub v2: u32,
    /// The fourth value.
    pub v3: u32,
    /// The fifth value.
    pub v4: u32,
    /// The sixth value.
    pub v5: u32,
}

impl Reply {
    /// The six values of a result, or the refusal.
    ///
    /// # Panics
    /// If the refusal has a number that the table hasn't got: then library and crate don't belong together.
    pub fn values(self) -> Result<[u32; 6], Refusal> {
        result(self.refusal, self.place)?;
        Ok([self.v0, self.v1, self.v2, self.v3, self.v4, self.v5])
    }
}

/// The state of a week in which roads close and reopen, passed and returned by value. What an answer
/// hasn't got is 0.
#[repr(C)]
#[derive(Clone, Copy, Debug, PartialEq, Eq, Hash)]
pub struct WeekState {
    /// Arc i is closed if bit i % 64 of word i / 64 is set; bits from m on close nothing.
    pub closed: [u64; 16],
    /// The nodes of the route, then 0.
    pub route: [u16; 200],
    /// 1 settled, 2 open, 15 no path is left.
    pub state: u32,
    /// The route's length in nodes.
    pub length: u32,
    /// Its figure.
    pub figure: u32,
    /// Its worst column.
    pub worst: u32,
    /// How many paths the last full run counted.
    pub count: u32,
    /// The floor, if the answer is open.
    pub floor: u32,
}

/// The answer of a call on a week, returned by value.
#[repr(C)]
#[derive(Clone, Copy, Debug, PartialEq, Eq)]
pub struct WeekReply {
    /// 0 for a result, else the number of the refusal.
    pub refusal: u32,
    /// The place of the refusal, 0 if it names none.
    pub place: u32,
    /// How many roads are closed, 0 beside a refusal.
    pub closed_roads: u32,
    /// The state after the call: beside a refusal the one that was given, or all 0 if it was Fresh.
    pub week: WeekState,
}

impl WeekReply {
    /// The state and the number of closed roads of a result, or the refusal.
    ///
    /// # Panics
    /// As [`Reply::values`] does.
    pub fn values(self) -> Result<(WeekState, u32), Refusal> {
        result(self.refusal, self.place)?;
        Ok((self.week, self.closed_roads))
    }
}

/// The refusal of a reply, if it has one.
fn result(number: u32, place: u32) -> Result<(), Refusal> {
    if number == 0 {
        return Ok(());
    }
    match Refusal::from_numbers(number, place) {
        Some(refusal) => Err(refusal),
        None => panic!("the library gave refusal {number}, which this crate doesn't know"),
    }
}

extern "C" {
    /// The library's version: major times 1,000,000, plus minor times 1,000, plus patch.
    pub fn vihrolom_version() -> u32;

    /// Check. v: n, m, k, edition.
    pub fn vihrolom_check(image: *const u8, image_length: usize) -> Reply;

    /// Label: writes n labels.
    pub fn vihrolom_label(
        image: *const u8,
        image_length: usize,
        column: u32,
        goal: u32,
        labels: *mut u32,
        labels_length: usize,
    ) -> Reply;

    /// Shortest: writes the path. v: length, cost.
    pub fn vihrolom_shortest(
        image: *const u8,
        image_length: usize,
        column: u32,
        start: u32,
        goal: u32,
        path: *mut u16,
        path_length: usize,
    ) -> Reply;

    /// Regret of a node list. v: figure, worst column.
    pub fn vihrolom_regret(
        image: *const u8,
        image_length: usize,
        start: u32,
        goal: u32,
        nodes: *const u16,
        nodes_length: usize,
    ) -> Reply;

    /// Rank: writes a row of n places and a cost for each path, and clears the workspace. v: count.
    pub fn vihrolom_rank(
        image: *const u8,
        image_length: usize,
        column: u32,
        start: u32,
        goal: u32,
        k: u32,
        rows: *mut u16,
        rows_length: usize,
        costs: *mut u32,
        costs_length: usize,
        work: *mut u32,
        work_length: usize,
    ) -> Reply;

    /// Robust: writes the path, and clears the workspace. v: length, figure, worst column, count,
    /// state (1 settled, 2 open), floor (0 if settled).
    pub fn vihrolom_robust(
        image: *const u8,
        image_length: usize,
        column: u32,
        start: u32,
        goal: u32,
        k: u32,
        path: *mut u16,
        path_length: usize,
        work: *mut u32,
        work_length: usize,
    ) -> Reply;

    /// Search: writes the path. v: length, figure, worst column, arcs tried.
    pub fn vihrolom_search(
        image: *const u8,
        image_length: usize,
        start: u32,
        goal: u32,
        limit: u32,
        path: *mut u16,
        path_length: usize,
    ) -> Reply;

    /// Build: writes an image of an edition, of n nodes and k columns. v: length.
    pub fn vihrolom_build(
        edition: u32,
        n: u32,
        k: u32,
        nodes: *const u16,
        nodes_length: usize,
        costs: *const u32,
        costs_length: usize,
        image: *mut u8,
        image_length: usize,
    ) -> Reply;

    /// Unpack: writes 2m node numbers and mk costs. v: n, m, k, edition.
    pub fn vihrolom_unpack(
        image: *const u8,
        image_length: usize,
        nodes: *mut u16,
        nodes_length: usize,
        costs: *mut u32,
        costs_length: usize,
    ) -> Reply;

    /// Update: writes the costs of the records that count over those of the image.
    pub fn vihrolom_update(
        image: *mut u8,
        image_length: usize,
        records: *const u32,
        records_length: usize,
    ) -> Reply;

    /// Find. v: found (1 or 0), index (0 if there is none), looks.
    pub fn vihrolom_find(image: *const u8, image_length: usize, tail: u32, head: u32) -> Reply;

    /// Fresh: the state of a week in which every road is open; clears the workspace.
    pub fn vihrolom_week_fresh(
        image: *const u8,
        image_length: usize,
        column: u32,
        start: u32,
        goal: u32,
        k: u32,
        work: *mut u32,
        work_length: usize,
    ) -> WeekReply;

    /// Event: the state after an arc is closed, or opened if `close` is 0; clears the workspace.
    pub fn vihrolom_week_event(
        image: *const u8,
        image_length: usize,
        column: u32,
        start: u32,
        goal: u32,
        k: u32,
        week: WeekState,
        arc: u32,
        close: u32,
        work: *mut u32,
        work_length: usize,
    ) -> WeekReply;
}
