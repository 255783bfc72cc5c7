//! Drawn numbers, networks and lists, the same in every run.

use crate::plain::Net;

/// A generator of numbers (splitmix64).
pub struct Draw(u64);

impl Draw {
    /// The generator that starts from a seed.
    pub fn new(seed: u64) -> Draw {
        Draw(seed)
    }

    /// Any 64-bit number.
    fn next(&mut self) -> u64 {
        self.0 = self.0.wrapping_add(0x9e37_79b9_7f4a_7c15);
        let mixed = (self.0 ^ (self.0 >> 30)).wrapping_mul(0xbf58_476d_1ce4_e5b9);
        let mixed = (mixed ^ (mixed >> 27)).wrapping_mul(0x94d0_49bb_1331_11eb);
        mixed ^ (mixed >> 31)
    }

    /// A number from `low` to `high`, both included.
    pub fn between(&mut self, low: u32, high: u32) -> u32 {
        let span = u64::from(high - low) + 1;
        let below_span = ((self.next() >> 32) * span) >> 32;
        low + u32::try_from(below_span).expect("a span has at most 2^32 numbers")
    }

    /// A position in a list of this length, which is not 0.
    pub fn position(&mut self, length: usize) -> usize {
        self.between(0, u32::try_from(length - 1).expect("a short list")) as usize
    }

    /// True once in so many draws.
    pub fn once_in(&mut self, many: u32) -> bool {
        self.between(1, many) == 1
    }

    /// One of a list.
    pub fn pick<T: Copy>(&mut self, list: &[T]) -> T {
        list[self.position(list.len())]
    }
}

/// A network of 2 to 8 nodes and 1 to 8 columns. Some have few arcs, some nearly all; costs are
/// often 0 or equal, so that rings of cost 0 and ties come up. In half of those of edition 2 some arcs
/// are closed.
pub fn network(draw: &mut Draw) -> Net {
    let n = draw.between(2, 8);
    let chance = if draw.once_in(10) {
        draw.between(70, 100)
    } else {
        draw.between(15, 65)
    };
    let mut arcs = Vec::new();
    for tail in 1..=n {
        for head in 1..=n {
            if tail != head && draw.between(1, 100) <= chance {
                arcs.push((tail, head));
            }
        }
    }
    let largest = draw.pick(&[0, 1, 1, 3, 10, 1_000, 1_000_000]);
    let k = draw.between(1, 8);
    let edition = draw.between(1, 2);
    let closed = if edition == 2 {
        draw.pick(&[0, 0, 5, 30])
    } else {
        0
    };
    let columns = (0..k)
        .map(|_| arcs.iter().map(|_| price(draw, closed, largest)).collect())
        .collect();
    Net {
        edition,
        n,
        arcs,
        columns,
    }
}

/// A cost, or in so many of 100 draws an arc that is closed.
fn price(draw: &mut Draw, closed: u32, largest: u32) -> Option<u32> {
    (draw.between(1, 100) > closed).then(|| cost(draw, largest))
}

/// A cost up to `largest`, often an end of that range.
fn cost(draw: &mut Draw, largest: u32) -> u32 {
    match draw.between(0, 9) {
        0 | 1 => 0,
        2 => largest,
        _ => draw.between(0, largest),
    }
}

/// The numbers that are given to a call.
#[derive(Clone, Copy, Debug)]
pub struct Asked {
    pub column: u32,
    pub start: u32,
    pub goal: u32,
    pub k: u32,
}

/// Numbers for a call on a network. Now and then one of them is not admitted; some of these would be
/// in 16 bits.
pub fn asked(net: &Net, draw: &mut Draw) -> Asked {
    let columns = net.columns.len() as u32;
    let start = draw.between(1, net.n);
    let goal = draw.between(1, net.n - 1);
    let mut asked = Asked {
        column: draw.between(1, columns),
        start,
        goal: if goal < start { goal } else { goal + 1 },
        k: draw.between(1, 12),
    };
    match draw.between(1, 60) {
        1 => asked.column = draw.pick(&[0, columns + 1, 65_537, u32::MAX]),
        2 => asked.start = draw.pick(&[0, net.n + 1, 65_536 + start, u32::MAX]),
        3 => asked.goal = draw.pick(&[0, net.n + 1, 65_536 + goal, u32::MAX]),
        4 => asked.goal = start,
        5 => asked.k = draw.pick(&[0, 257, 65_537, u32::MAX]),
        6 => asked.k = draw.between(13, 256),
        _ => {}
    }
    asked
}

/// A node list: one of the paths, one that was changed, or any nodes at all.
pub fn list(net: &Net, paths: &[Vec<u32>], draw: &mut Draw) -> Vec<u32> {
    if paths.is_empty() || draw.once_in(8) {
        let length = draw.between(0, net.n + 2);
        return (0..length).map(|_| node(net.n, draw)).collect();
    }
    let mut list = paths[draw.position(paths.len())].clone();
    let at = draw.position(list.len());
    match draw.between(1, 10) {
        1 => list[at] = node(net.n, draw),
        2 => list.insert(at, node(net.n, draw)),
        3 => list.push(node(net.n, draw)),
        4 => list.truncate(at),
        5 => drop(list.remove(at)),
        6 => list.swap(at, 0),
        _ => {}
    }
    list
}

/// A node of 1 to n, now and then a number that is none: also such as would be a node in 16 bits.
pub fn node(n: u32, draw: &mut Draw) -> u32 {
    let node = draw.between(1, n);
    if draw.once_in(12) {
        draw.pick(&[0, n + 1, 65_535, 65_536 + node, u32::MAX])
    } else {
        node
    }
}
