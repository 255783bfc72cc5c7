//! Slices of right and wrong lengths lent to every call: what is written, what is kept, and that nothing
//! beside a slice is touched.

use crate::draw::{self, Asked, Draw};
use crate::plain::{limits, within, Net, Query, Refused};
use std::fmt::Debug;
use std::io::Write;
use vihrolom::calls;
use vihrolom::raw::Reply;

/// How many guard words stand before a lent slice, and how many behind it.
const GUARD: usize = 8;

/// A slice to lend, between guard words, all filled with a pattern that has no 0.
pub struct Lent<T> {
    words: Vec<T>,
    length: usize,
}

impl<T: From<u8> + Copy + PartialEq + Debug> Lent<T> {
    /// A slice of this length.
    pub fn new(length: usize) -> Lent<T> {
        Lent {
            words: pattern().take(GUARD + length + GUARD).collect(),
            length,
        }
    }

    /// The slice, without the guard words.
    pub fn slice(&mut self) -> &mut [T] {
        &mut self.words[GUARD..GUARD + self.length]
    }

    /// Asserts that the slice begins with what was written, and that all else is as it was.
    pub fn assert_holds(&self, written: &[T]) {
        let mut expected: Vec<T> = pattern().take(self.words.len()).collect();
        expected[GUARD..GUARD + written.len()].copy_from_slice(written);
        assert_eq!(self.words, expected);
    }
}

fn pattern<T: From<u8>>() -> impl Iterator<Item = T> {
    (1..=251).cycle().map(T::from)
}

/// The reply that is wanted: the values of a result, filled up with 0, or the refusal.
pub fn reply_of(answer: Result<Vec<u32>, &Refused>) -> Reply {
    match answer {
        Ok(mut values) => {
            values.resize(6, 0);
            let [v0, v1, v2, v3, v4, v5] = values[..] else {
                panic!("more than six values")
            };
            Reply {
                refusal: 0,
                place: 0,
                v0,
                v1,
                v2,
                v3,
                v4,
                v5,
            }
        }
        Err(&(refusal, place)) => Reply {
            refusal,
            place,
            ..Reply::default()
        },
    }
}

/// The answer where no slice is too short, else row 13, unless a lower row applies.
fn unless_short<T>(answer: Result<T, Refused>, short: bool) -> Result<T, Refused> {
    match answer {
        Err((number, _)) if number < 13 => answer,
        _ if short => Err((13, 0)),
        _ => answer,
    }
}

/// The lengths to lend where so many are needed: none, one too few, just enough, one more, many more.
fn lengths(needed: usize) -> Vec<usize> {
    let mut lengths = vec![
        0,
        needed.saturating_sub(1),
        needed,
        needed + 1,
        needed + 100,
    ];
    lengths.dedup();
    lengths
}

fn in_16_bits(nodes: &[u32]) -> Vec<u16> {
    nodes.iter().map(|&node| node as u16).collect()
}

/// A network and the numbers of a call; counts the calls that are made.
struct Trial<'a> {
    net: &'a Net,
    image: Vec<u8>,
    asked: Asked,
    query: Query<'a>,
    calls: u32,
}

/// Each call with all lengths of its slices. A refusal writes nothing: what is written is then the
/// empty list.
impl Trial<'_> {
    fn new(net: &Net, asked: Asked) -> Trial<'_> {
        let query = Query::new(net, asked.start, asked.goal);
        Trial {
            net,
            image: net.image(),
            asked,
            query,
            calls: 0,
        }
    }

    /// The number of nodes, of the paths to make room for, and of the places that a workspace needs.
    /// A K out of range is refused before room matters.
    fn sizes(&self) -> (usize, usize, usize) {
        let (n, k) = (self.net.n as usize, self.asked.k.min(256) as usize);
        (n, k, (k + 1) * (n + 16) + 16 * n + 64)
    }

    /// The values that Check and Unpack give: n, m, k, edition.
    fn check(&mut self) -> Vec<u32> {
        let values = vec![
            self.net.n,
            self.net.arcs.len() as u32,
            self.net.columns.len() as u32,
            self.net.edition,
        ];
        assert_eq!(calls::check(&self.image), reply_of(Ok(values.clone())));
        self.calls += 1;
        values
    }

    fn label(&mut self, length: usize) {
        let Asked { column, goal, .. } = self.asked;
        let mut labels = Lent::new(length);
        let reply = calls::label(&self.image, column, goal, labels.slice());
        let answer = unless_short(self.net.label(column, goal), length < self.sizes().0);
        assert_eq!(reply, reply_of(answer.as_ref().map(|_| vec![])));
        let least = answer.unwrap_or_default();
        labels.assert_holds(
            &least
                .iter()
                .map(|label| label.unwrap_or(u32::MAX))
                .collect::<Vec<_>>(),
        );
        self.calls += 1;
    }

    fn shortest(&mut self, length: usize) {
        let Asked {
            column,
            start,
            goal,
            ..
        } = self.asked;
        let mut path = Lent::new(length);
        let reply = calls::shortest(&self.image, column, start, goal, path.slice());
        let answer = unless_short(self.query.shortest(column), length < self.sizes().0);
        let values = answer
            .as_ref()
            .map(|(nodes, cost)| vec![nodes.len() as u32, *cost]);
        assert_eq!(reply, reply_of(values));
        let (nodes, _) = answer.unwrap_or_default();
        path.assert_holds(&in_16_bits(&nodes));
        self.calls += 1;
    }

    fn search(&mut self, length: usize) {
        let Asked { start, goal, .. } = self.asked;
        let expected = self.query.search();
        for limit in limits(&expected) {
            let mut path = Lent::new(length);
            let reply = calls::search(&self.image, start, goal, limit, path.slice());
            let answer = unless_short(within(limit, &expected), length < self.sizes().0);
            let values = answer.as_ref().map(|found| {
                let length = found.route.len() as u32;
                vec![length, found.figure, found.worst, found.tried]
            });
            assert_eq!(reply, reply_of(values));
            let nodes = answer.map_or(vec![], |found| found.route);
            path.assert_holds(&in_16_bits(&nodes));
            self.calls += 1;
        }
    }

    /// The list that Regret reads may have any length, and stays as it is.
    fn regret(&mut self, nodes: &[u32]) {
        let Asked { start, goal, .. } = self.asked;
        let mut list = Lent::new(nodes.len());
        list.slice().copy_from_slice(&in_16_bits(nodes));
        let reply = calls::regret(&self.image, start, goal, list.slice());
        let answer = self.query.regret(nodes);
        assert_eq!(
            reply,
            reply_of(answer.as_ref().map(|&(figure, worst)| vec![figure, worst]))
        );
        list.assert_holds(&in_16_bits(nodes));
        self.calls += 1;
    }

    fn rank(&mut self, mut rows: Lent<u16>, mut costs: Lent<u32>, mut work: Lent<u32>) {
        let Asked {
            column,
            start,
            goal,
            k,
        } = self.asked;
        let (in_rows, in_costs, in_work) = (rows.slice(), costs.slice(), work.slice());
        let reply = calls::rank(
            &self.image,
            column,
            start,
            goal,
            k,
            in_rows,
            in_costs,
            in_work,
        );
        let (n, room, space) = self.sizes();
        let short = rows.length < room * n || costs.length < room || work.length < space;
        let answer = unless_short(self.query.rank(column, k), short);
        assert_eq!(
            reply,
            reply_of(answer.as_ref().map(|paths| vec![paths.len() as u32]))
        );
        work.assert_holds(
            &answer
                .as_ref()
                .map(|_| vec![0; work.length])
                .unwrap_or_default(),
        );
        let (mut all_rows, mut all_costs) = (Vec::new(), Vec::new());
        for (path, (nodes, cost)) in answer.unwrap_or_default().into_iter().enumerate() {
            all_rows.extend(in_16_bits(&nodes));
            all_rows.resize((path + 1) * n, 0);
            all_costs.push(cost);
        }
        rows.assert_holds(&all_rows);
        costs.assert_holds(&all_costs);
        self.calls += 1;
    }

    fn robust(&mut self, mut path: Lent<u16>, mut work: Lent<u32>) {
        let Asked {
            column,
            start,
            goal,
            k,
        } = self.asked;
        let (in_path, in_work) = (path.slice(), work.slice());
        let reply = calls::robust(&self.image, column, start, goal, k, in_path, in_work);
        let (n, _, space) = self.sizes();
        let short = path.length < n || work.length < space;
        let answer = unless_short(self.query.robust(column, k), short);
        let values = answer.as_ref().map(|chosen| {
            let (state, floor) = chosen.floor.map_or((1, 0), |floor| (2, floor));
            let length = chosen.route.len() as u32;
            vec![
                length,
                chosen.figure,
                chosen.worst,
                chosen.count,
                state,
                floor,
            ]
        });
        assert_eq!(reply, reply_of(values));
        work.assert_holds(
            &answer
                .as_ref()
                .map(|_| vec![0; work.length])
                .unwrap_or_default(),
        );
        path.assert_holds(
            &answer
                .map(|chosen| in_16_bits(&chosen.route))
                .unwrap_or_default(),
        );
        self.calls += 1;
    }

    fn unpack(&mut self, mut nodes: Lent<u16>, mut costs: Lent<u32>) {
        let (all_nodes, all_costs) = (self.net.ends(), self.net.costs());
        let sizes = self.check();
        let reply = calls::unpack(&self.image, nodes.slice(), costs.slice());
        let short = nodes.length < all_nodes.len() || costs.length < all_costs.len();
        let answer = unless_short(Ok((all_nodes, all_costs)), short);
        assert_eq!(reply, reply_of(answer.as_ref().map(|_| sizes)));
        let (all_nodes, all_costs) = answer.unwrap_or_default();
        nodes.assert_holds(&all_nodes);
        costs.assert_holds(&all_costs);
        self.calls += 1;
    }

    fn build(&mut self, length: usize) {
        let Net {
            edition,
            n,
            columns,
            ..
        } = self.net;
        let k = columns.len() as u32;
        let (ends, costs) = (self.net.ends(), self.net.costs());
        let mut image = Lent::new(length);
        let reply = calls::build(*edition, *n, k, &ends, &costs, image.slice());
        let answer = unless_short(Ok(self.image.clone()), length < self.image.len());
        assert_eq!(
            reply,
            reply_of(answer.as_ref().map(|whole| vec![whole.len() as u32]))
        );
        image.assert_holds(&answer.unwrap_or_default());
        self.calls += 1;
    }

    /// Calls with one lent slice, and Regret, which has none.
    fn one_slice(&mut self) {
        for length in lengths(self.net.n as usize) {
            self.label(length);
            self.shortest(length);
            self.search(length);
        }
        for length in lengths(self.image.len()) {
            self.build(length);
        }
        let start = self.asked.start;
        let mut lists = self.query.lists();
        lists.truncate(3);
        lists.extend([vec![], vec![start], vec![start; 300]]);
        for list in lists {
            self.regret(&list);
        }
    }

    /// Calls with more than one.
    fn more_slices(&mut self) {
        let (n, room, space) = self.sizes();
        for nodes in lengths(2 * self.net.arcs.len()) {
            for costs in lengths(self.net.costs().len()) {
                self.unpack(Lent::new(nodes), Lent::new(costs));
            }
        }
        for work in lengths(space) {
            for path in lengths(n) {
                self.robust(Lent::new(path), Lent::new(work));
            }
            for rows in lengths(room * n) {
                for costs in lengths(room) {
                    self.rank(Lent::new(rows), Lent::new(costs), Lent::new(work));
                }
            }
        }
    }
}

#[test]
fn slices_of_any_length_are_written_or_refused_and_nothing_beside_them_is_touched() {
    const NETWORKS: u32 = 1_000;
    let mut draw = Draw::new(4);
    let mut made = 0;
    for _ in 0..NETWORKS {
        let net = draw::network(&mut draw);
        let mut trial = Trial::new(&net, draw::asked(&net, &mut draw));
        trial.one_slice();
        trial.more_slices();
        made += trial.calls;
    }
    writeln!(std::io::stdout(), "lent slices: {made} calls agreed").expect("standard output");
    assert!(made >= 150 * NETWORKS, "only {made} calls");
}
