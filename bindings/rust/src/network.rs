//! An accepted network, and the calls on it.

use crate::{calls, Choice, Found, Path, Record, Refusal, Regret, Search, Week};

/// The length of the longest image: 1,000 arcs and 8 columns.
const LONGEST_IMAGE: usize = 24 + 4 * 1_000 * (1 + 8);

/// The largest K that is not refused.
const MOST_PATHS: u32 = 256;

/// A network whose image the core has accepted: 2 to 200 nodes, up to 1,000 arcs, 1 to 8 columns,
/// costs up to 1,000,000; in edition 2 an arc may be closed in a column.
///
/// Paths of a column use arcs that are open in it. [`Network::regret`], [`Network::robust`] and
/// [`Network::search`] are about paths that are open in every column, and hold them in each against the best
/// path of that column.
///
/// Nodes and columns are numbered from 1. Any number may be given to a call; what is not
/// admitted is refused.
#[derive(Clone, Debug, PartialEq, Eq, Hash)]
pub struct Network {
    image: Vec<u8>,
    edition: u32,
    nodes: u32,
    arcs: Vec<(u32, u32)>,
    columns: Vec<Vec<Option<u32>>>,
}

impl Network {
    /// The network of an edition, 1 or 2, with this number of nodes, these arcs from tail to head, and
    /// these columns, each with the cost of every arc. Arcs must rise strictly by tail, then head. Costs
    /// are numbers, or in edition 2 options, of which `None` closes the arc in that column.
    ///
    /// A column that hasn't got one cost for each arc is refused as row 4, and `None` in edition 1 as
    /// row 9.
    pub fn build<T: Copy + Into<Option<u32>>, C: AsRef<[T]>>(
        edition: u32,
        nodes: u32,
        arcs: &[(u32, u32)],
        columns: &[C],
    ) -> Result<Network, Refusal> {
        let ends: Vec<u16> = arcs
            .iter()
            .flat_map(|&(tail, head)| [tail, head])
            .map(in_16_bits)
            .collect();
        let costs = joined(arcs.len(), columns);
        // More columns than 32 bits can count are as much out of range as the most that they can.
        let k = u32::try_from(columns.len()).unwrap_or(u32::MAX);
        let mut image = vec![0; LONGEST_IMAGE];
        let [length, ..] = calls::build(edition, nodes, k, &ends, &costs, &mut image).values()?;
        image.truncate(length as usize);
        image.shrink_to_fit();
        Network::from_image(image)
    }

    /// The network of an image.
    pub fn from_image(image: impl Into<Vec<u8>>) -> Result<Network, Refusal> {
        let image = image.into();
        let [nodes, m, k, edition, ..] = calls::check(&image).values()?;
        let (m, k) = (m as usize, k as usize);
        let mut ends = vec![0; 2 * m];
        let mut costs = vec![0; m * k];
        calls::unpack(&image, &mut ends, &mut costs).values()?;
        let arcs = ends
            .chunks_exact(2)
            .map(|arc| (arc[0].into(), arc[1].into()))
            .collect();
        let columns = (0..k)
            .map(|u| unmarked(&costs[u * m..(u + 1) * m]))
            .collect();
        Ok(Network {
            image,
            edition,
            nodes,
            arcs,
            columns,
        })
    }

    /// The image.
    pub fn image(&self) -> &[u8] {
        &self.image
    }

    /// The edition, 1 or 2.
    pub fn edition(&self) -> u32 {
        self.edition
    }

    /// The number of nodes.
    pub fn nodes(&self) -> u32 {
        self.nodes
    }

    /// The arcs, from tail to head, rising.
    pub fn arcs(&self) -> &[(u32, u32)] {
        &self.arcs
    }

    /// The columns, each with the costs of all arcs in their order, `None` for an arc that is closed.
    /// Column u stands at index u - 1.
    pub fn columns(&self) -> &[Vec<Option<u32>>] {
        &self.columns
    }

    /// For each node the least cost to the goal, or `None` if the goal can't be reached. Node v stands
    /// at index v - 1.
    pub fn label(&self, column: u32, goal: u32) -> Result<Vec<Option<u32>>, Refusal> {
        let mut labels = vec![0; self.nodes as usize];
        calls::label(&self.image, column, goal, &mut labels).values()?;
        Ok(unmarked(&labels))
    }

    /// The first path of the ranking order: the cheapest one, and of equally cheap ones the one with
    /// the smaller node at the first place where they differ.
    pub fn shortest(&self, column: u32, start: u32, goal: u32) -> Result<Path, Refusal> {
        let mut path = vec![0; self.nodes as usize];
        let [length, cost, ..] =
            calls::shortest(&self.image, column, start, goal, &mut path).values()?;
        Ok(Path {
            nodes: in_32_bits(&path[..length as usize]),
            cost,
        })
    }

    /// The greatest regret of the path with these nodes, which must be open in every column.
    pub fn regret(&self, start: u32, goal: u32, nodes: &[u32]) -> Result<Regret, Refusal> {
        let nodes: Vec<u16> = nodes.iter().copied().map(in_16_bits).collect();
        let [figure, worst_column, ..] =
            calls::regret(&self.image, start, goal, &nodes).values()?;
        Ok(Regret {
            figure,
            worst_column,
        })
    }

    /// The first `k` paths of the ranking order, or all if there are fewer. `k` is 1 to 256.
    pub fn rank(&self, column: u32, start: u32, goal: u32, k: u32) -> Result<Vec<Path>, Refusal> {
        let n = self.nodes as usize;
        let room = room_for(k);
        let mut rows = vec![0; room * n];
        let mut costs = vec![0; room];
        let mut work = self.workspace(k);
        let image = &self.image;
        let reply = calls::rank(
            image, column, start, goal, k, &mut rows, &mut costs, &mut work,
        );
        let [count, ..] = reply.values()?;
        let paths = rows.chunks_exact(n).zip(costs).take(count as usize);
        Ok(paths
            .map(|(row, cost)| Path {
                nodes: in_32_bits(filled(row)),
                cost,
            })
            .collect())
    }

    /// The route of least greatest regret: paths that are open in every column are ranked in this one and
    /// counted until the stopping rule holds, at most `k` of them. `k` is 1 to 256.
    pub fn robust(&self, column: u32, start: u32, goal: u32, k: u32) -> Result<Choice, Refusal> {
        let mut path = vec![0; self.nodes as usize];
        let mut work = self.workspace(k);
        let reply = calls::robust(&self.image, column, start, goal, k, &mut path, &mut work);
        let [length, numbers @ ..] = reply.values()?;
        Ok(Choice::of(&path[..length as usize], numbers))
    }

    /// The week of the route from start to goal, with every road open yet; `k` is 1 to 256.
    pub fn week(&self, column: u32, start: u32, goal: u32, k: u32) -> Result<Week<'_>, Refusal> {
        Week::new(self, column, start, goal, k)
    }

    /// The route of least greatest regret of all that are open in every column, found depth first; it tries at
    /// most `limit` arcs, or is refused.
    pub fn search(&self, start: u32, goal: u32, limit: u32) -> Result<Search, Refusal> {
        let mut path = vec![0; self.nodes as usize];
        let [length, figure, worst_column, tried, ..] =
            calls::search(&self.image, start, goal, limit, &mut path).values()?;
        Ok(Search {
            route: in_32_bits(&path[..length as usize]),
            regret: Regret {
                figure,
                worst_column,
            },
            tried,
        })
    }

    /// The arc from a node to another, looked for by halving the range of the arcs.
    pub fn find(&self, tail: u32, head: u32) -> Result<Found, Refusal> {
        let [found, index, looks, ..] = calls::find(&self.image, tail, head).values()?;
        Ok(Found {
            index: (found == 1).then_some(index),
            looks,
        })
    }

    /// The network after a list of records: for each arc and column the cost of the record with the greatest
    /// stamp, and of equal stamps the later; costs without a record stay.
    pub fn update(&self, records: &[Record]) -> Result<Network, Refusal> {
        let numbers: Vec<u32> = records
            .iter()
            .flat_map(|r| [r.arc, r.column, marked(r.cost), r.stamp])
            .collect();
        let mut image = self.image.clone();
        calls::update(&mut image, &numbers).values()?;
        Network::from_image(image)
    }

    /// A workspace for `k` paths. A K above the most is refused as row 12 whatever the slices' lengths
    /// are, for row 13 stands later.
    pub(crate) fn workspace(&self, k: u32) -> Vec<u32> {
        let n = self.nodes as usize;
        vec![0; (room_for(k) + 1) * (n + 16) + 16 * n + 64]
    }
}

/// The number of paths to make room for.
fn room_for(k: u32) -> usize {
    k.min(MOST_PATHS) as usize
}

/// A node number as lists have it. One that is too large for 16 bits becomes the largest, which is no
/// node either; and a list is refused at its first number that is none, so the refusal and its place
/// are the same.
fn in_16_bits(node: u32) -> u16 {
    u16::try_from(node).unwrap_or(u16::MAX)
}

/// Node numbers of a list.
fn in_32_bits(nodes: &[u16]) -> Vec<u32> {
    nodes.iter().copied().map(u32::from).collect()
}

/// A row without the zeros that fill it up.
fn filled(row: &[u16]) -> &[u16] {
    let end = row.iter().position(|&node| node == 0).unwrap_or(row.len());
    &row[..end]
}

/// Costs or labels, `None` for the mark.
fn unmarked(numbers: &[u32]) -> Vec<Option<u32>> {
    numbers
        .iter()
        .map(|&number| (number != calls::MARK).then_some(number))
        .collect()
}

/// A cost as lists have it. A number never closes an arc: the one that is the mark becomes another,
/// which is as much too large for a cost.
fn marked(cost: Option<u32>) -> u32 {
    cost.map_or(calls::MARK, |cost| cost.min(calls::MARK - 1))
}

/// The costs of all columns in one list. If a column hasn't got m costs, the list hasn't got m for
/// each column either, as row 4 wants to see it: where the lengths even out, one cost is added.
fn joined<T: Copy + Into<Option<u32>>, C: AsRef<[T]>>(m: usize, columns: &[C]) -> Vec<u32> {
    let mut costs: Vec<u32> = columns
        .iter()
        .flat_map(|column| column.as_ref())
        .map(|&cost| marked(cost.into()))
        .collect();
    let ragged = columns.iter().any(|column| column.as_ref().len() != m);
    if ragged && m.checked_mul(columns.len()) == Some(costs.len()) {
        costs.push(0);
    }
    costs
}
