//! docs/REFERENCE.md in the plainest way, apart from the library: all loopless paths are found by
//! depth-first search, and every answer is read off from those of them that are open.

/// A refusal: its number and its place.
pub type Refused = (u32, u32);

/// Lists that may be a network of an edition. A cost that is `None` closes its arc.
#[derive(Clone, Debug, PartialEq)]
pub struct Net {
    pub edition: u32,
    pub n: u32,
    pub arcs: Vec<(u32, u32)>,
    pub columns: Vec<Vec<Option<u32>>>,
}

/// A path, with the indices of its arcs.
#[derive(Clone, Default)]
struct Route {
    nodes: Vec<u32>,
    arcs: Vec<usize>,
}

/// Robust's answer; there is a floor exactly if it is open.
#[derive(Clone, Debug, PartialEq)]
pub struct Chosen {
    pub route: Vec<u32>,
    pub figure: u32,
    pub worst: u32,
    pub count: u32,
    pub floor: Option<u32>,
}

/// Search's answer.
#[derive(Clone, Debug, PartialEq)]
pub struct Sought {
    pub route: Vec<u32>,
    pub figure: u32,
    pub worst: u32,
    pub tried: u32,
}

impl Net {
    /// The network without some of its arcs.
    pub fn without(&self, closed: &[bool]) -> Net {
        let kept = |arc: &usize| !closed[*arc];
        let column =
            |costs: &Vec<Option<u32>>| (0..costs.len()).filter(kept).map(|i| costs[i]).collect();
        Net {
            edition: self.edition,
            n: self.n,
            arcs: (0..self.arcs.len())
                .filter(kept)
                .map(|i| self.arcs[i])
                .collect(),
            columns: self.columns.iter().map(column).collect(),
        }
    }

    /// The image of these lists.
    pub fn image(&self) -> Vec<u8> {
        let (m, k) = (self.arcs.len() as u32, self.columns.len() as u32);
        let mut image = Vec::new();
        for number in [self.edition, self.n, m, k] {
            image.extend((number as u16).to_le_bytes());
        }
        for number in [24, 24 + 4 * m, 24 + 4 * m + 4 * m * k, 0] {
            image.extend(number.to_le_bytes());
        }
        for end in self.ends() {
            image.extend(end.to_le_bytes());
        }
        for cost in self.costs() {
            image.extend(cost.to_le_bytes());
        }
        image
    }

    /// Tails and heads in one list.
    pub fn ends(&self) -> Vec<u16> {
        self.arcs
            .iter()
            .flat_map(|&(tail, head)| [tail as u16, head as u16])
            .collect()
    }

    /// All columns in one list, with 4,294,967,295 for an arc that is closed.
    pub fn costs(&self) -> Vec<u32> {
        let costs = self.columns.iter().flatten();
        costs.map(|cost| cost.unwrap_or(u32::MAX)).collect()
    }

    /// The cost of a path in a column, `None` if an arc of it is closed there.
    fn cost(&self, column: u32, route: &Route) -> Option<u32> {
        let costs = &self.columns[column as usize - 1];
        route.arcs.iter().map(|&arc| costs[arc]).sum()
    }

    /// The least cost in a column of those paths that are open in it.
    fn least(&self, column: u32, routes: &[Route]) -> Option<u32> {
        routes
            .iter()
            .filter_map(|route| self.cost(column, route))
            .min()
    }

    /// Whether an arc is open in every column.
    fn open(&self, arc: usize) -> bool {
        self.columns.iter().all(|costs| costs[arc].is_some())
    }

    /// Whether there is an arc from one node to another that is open in every column.
    fn joins(&self, tail: u32, head: u32) -> bool {
        let arc = self.arcs.iter().position(|&arc| arc == (tail, head));
        arc.is_some_and(|arc| self.open(arc))
    }

    /// All loopless paths between two nodes. From a node to itself that is the path of one node.
    fn routes(&self, start: u32, goal: u32) -> Vec<Route> {
        let mut found = Vec::new();
        let mut route = Route {
            nodes: vec![start],
            arcs: Vec::new(),
        };
        self.extend(&mut route, goal, &mut found);
        found
    }

    /// Adds to `found` all loopless paths to the goal that begin with `route`.
    fn extend(&self, route: &mut Route, goal: u32, found: &mut Vec<Route>) {
        let last = route.nodes[route.nodes.len() - 1];
        if last == goal {
            found.push(route.clone());
            return;
        }
        for (arc, &(tail, head)) in self.arcs.iter().enumerate() {
            if tail == last && !route.nodes.contains(&head) {
                route.nodes.push(head);
                route.arcs.push(arc);
                self.extend(route, goal, found);
                route.nodes.pop();
                route.arcs.pop();
            }
        }
    }

    fn has_node(&self, node: u32) -> bool {
        (1..=self.n).contains(&node)
    }

    /// Row 11.
    fn check_column(&self, column: u32) -> Result<(), Refused> {
        let there = column >= 1 && column as usize <= self.columns.len();
        if there {
            Ok(())
        } else {
            Err((11, 0))
        }
    }

    /// Find: the arc's index by a scan, and the looks by the rule, which leaves a part of the arcs.
    pub fn find(&self, tail: u32, head: u32) -> (Option<u32>, u32) {
        let arc = (tail, head);
        let index = self.arcs.iter().position(|&each| each == arc);
        let (mut left, mut looks) = (&self.arcs[..], 0);
        while !left.is_empty() {
            let (before, from_middle) = left.split_at((left.len() - 1) / 2);
            looks += 1;
            left = match from_middle[0].cmp(&arc) {
                std::cmp::Ordering::Less => &from_middle[1..],
                std::cmp::Ordering::Equal => &[],
                std::cmp::Ordering::Greater => before,
            };
        }
        (index.map(|index| index as u32), looks)
    }

    /// Label: for each node the least cost of its paths to the goal.
    pub fn label(&self, column: u32, goal: u32) -> Result<Vec<Option<u32>>, Refused> {
        if !self.has_node(goal) {
            return Err((10, 0));
        }
        self.check_column(column)?;
        let least = |node| self.least(column, &self.routes(node, goal));
        Ok((1..=self.n).map(least).collect())
    }
}

/// A network, start and goal, with all paths between them, open or not.
pub struct Query<'a> {
    net: &'a Net,
    start: u32,
    goal: u32,
    routes: Vec<Route>,
}

impl Query<'_> {
    /// Finds all paths; start and goal may be any numbers.
    pub fn new(net: &Net, start: u32, goal: u32) -> Query<'_> {
        let mut query = Query {
            net,
            start,
            goal,
            routes: Vec::new(),
        };
        if query.check_ends().is_ok() {
            query.routes = net.routes(start, goal);
        }
        query
    }

    /// The node lists of all paths.
    pub fn lists(&self) -> Vec<Vec<u32>> {
        self.routes
            .iter()
            .map(|route| route.nodes.clone())
            .collect()
    }

    /// Row 10.
    fn check_ends(&self) -> Result<(), Refused> {
        let right = self.net.has_node(self.start) && self.net.has_node(self.goal);
        if right && self.start != self.goal {
            Ok(())
        } else {
            Err((10, 0))
        }
    }

    /// Rows 10, 11, 12 and 15, and then the paths that are open, in the ranking order.
    fn ranked(
        &self,
        column: u32,
        k: u32,
        open: impl Fn(&Route) -> bool,
    ) -> Result<Vec<&Route>, Refused> {
        self.check_ends()?;
        self.net.check_column(column)?;
        if !(1..=256).contains(&k) {
            return Err((12, 0));
        }
        let mut ranked: Vec<&Route> = self.routes.iter().filter(|route| open(route)).collect();
        if ranked.is_empty() {
            return Err((15, 0));
        }
        ranked.sort_by_key(|route| (self.net.cost(column, route), &route.nodes));
        Ok(ranked)
    }

    /// Shortest: the first path with its cost.
    pub fn shortest(&self, column: u32) -> Result<(Vec<u32>, u32), Refused> {
        Ok(self.rank(column, 1)?.remove(0))
    }

    /// Rank: the first k paths that are open in the column, with their costs.
    pub fn rank(&self, column: u32, k: u32) -> Result<Vec<(Vec<u32>, u32)>, Refused> {
        let cost = |route: &Route| self.net.cost(column, route);
        let ranked = self.ranked(column, k, |route| cost(route).is_some())?;
        let first = ranked.into_iter().take(k as usize);
        Ok(first
            .filter_map(|route| Some((route.nodes.clone(), cost(route)?)))
            .collect())
    }

    /// For each column the least cost of all paths that are open in it.
    pub fn bests(&self) -> Vec<Option<u32>> {
        let columns = 1..=self.net.columns.len() as u32;
        columns
            .map(|column| self.net.least(column, &self.routes))
            .collect()
    }

    /// The deviation in each column of a path that is open in every one.
    fn deviations(&self, bests: &[Option<u32>], route: &Route) -> Vec<u32> {
        let columns = 1..=self.net.columns.len() as u32;
        let deviation = |(column, &best)| Some(self.net.cost(column, route)? - best?);
        let all: Option<Vec<u32>> = columns.zip(bests).map(deviation).collect();
        all.expect("an open path")
    }

    /// Row 14: the place at which a node list is no path.
    fn place_in_error(&self, list: &[u32]) -> Option<usize> {
        if list.first() != Some(&self.start) {
            return Some(0);
        }
        for position in 1..list.len() {
            let (before, node) = (list[position - 1], list[position]);
            if list[..position].contains(&node) || !self.net.joins(before, node) {
                return Some(position);
            }
        }
        (list.last() != Some(&self.goal)).then_some(list.len())
    }

    /// Regret: figure and worst column of a node list.
    pub fn regret(&self, list: &[u32]) -> Result<(u32, u32), Refused> {
        self.check_ends()?;
        if let Some(place) = self.place_in_error(list) {
            return Err((14, place as u32));
        }
        let route = self
            .routes
            .iter()
            .find(|route| route.nodes == list)
            .expect("all paths are found");
        Ok(greatest(&self.deviations(&self.bests(), route)))
    }

    /// Robust: the stopping rule J over all paths that are open in every column, and the earliest of
    /// those counted that has the least figure.
    pub fn robust(&self, column: u32, k: u32) -> Result<Chosen, Refused> {
        let ranked = self.ranked(column, k, |route| {
            route.arcs.iter().all(|&arc| self.net.open(arc))
        })?;
        let bests = self.bests();
        let deviations: Vec<_> = ranked
            .iter()
            .map(|route| self.deviations(&bests, route))
            .collect();
        let figures: Vec<u32> = deviations.iter().map(|each| greatest(each).0).collect();
        let least = |j: usize| *figures[..j].iter().min().expect("j is not 0");
        let in_column = |j: usize| deviations[j - 1][column as usize - 1];
        let all = ranked.len();
        let needed = (1..=all)
            .find(|&j| j == all || in_column(j + 1) >= least(j))
            .expect("j = N");
        let count = needed.min(k as usize);
        let at = figures
            .iter()
            .position(|&figure| figure == least(count))
            .expect("it is attained");
        let (figure, worst) = greatest(&deviations[at]);
        Ok(Chosen {
            route: ranked[at].nodes.clone(),
            figure,
            worst,
            count: count as u32,
            floor: (needed > k as usize).then(|| in_column(k as usize + 1)),
        })
    }

    /// Search by its rule, with no limit.
    pub fn search(&self) -> Result<Sought, Refused> {
        self.check_ends()?;
        let open = |route: &Route| route.arcs.iter().all(|&arc| self.net.open(arc));
        if !self.routes.iter().any(open) {
            return Err((15, 0));
        }
        let columns = 1..=self.net.columns.len() as u32;
        let labels = |node| {
            let routes = self.net.routes(node, self.goal);
            let least = |column| self.net.least(column, &routes);
            columns.clone().map(least).collect()
        };
        let mut rule = Rule {
            net: self.net,
            goal: self.goal,
            bests: self.bests(),
            labels: (1..=self.net.n).map(labels).collect(),
            best: None,
            tried: 0,
        };
        let mut route = Route::default();
        route.nodes.push(self.start);
        rule.descend(&mut route);
        let (_, best) = rule.best.expect("there is an open path");
        let (figure, worst) = greatest(&self.deviations(&rule.bests, &best));
        Ok(Sought {
            route: best.nodes,
            figure,
            worst,
            tried: rule.tried,
        })
    }
}

/// Search's rule: the best of each column, the labels of each node in all columns, and what it has found.
struct Rule<'a> {
    net: &'a Net,
    goal: u32,
    bests: Vec<Option<u32>>,
    labels: Vec<Vec<Option<u32>>>,
    best: Option<(u32, Route)>,
    tried: u32,
}

impl Rule<'_> {
    /// The largest, over the columns, of the cost of a partial route and the label of its last node, less the
    /// column's best; `None` if an arc is closed or the goal out of reach in one.
    fn outlook(&self, route: &Route) -> Option<u32> {
        let labels = &self.labels[route.nodes[route.nodes.len() - 1] as usize - 1];
        let ahead = |(index, &best): (usize, &Option<u32>)| {
            Some(self.net.cost(index as u32 + 1, route)? + labels[index]? - best?)
        };
        let all: Option<Vec<u32>> = self.bests.iter().enumerate().map(ahead).collect();
        Some(greatest(&all?).0)
    }

    /// Whether this is no smaller than the best figure, once there is one.
    fn too_large(&self, figure: u32) -> bool {
        self.best.as_ref().is_some_and(|(best, _)| figure >= *best)
    }

    /// Lengthens a partial route by its unused heads, the smallest first: arcs rise.
    fn descend(&mut self, route: &mut Route) {
        let last = route.nodes[route.nodes.len() - 1];
        if last == self.goal {
            let figure = self.outlook(route).expect("an open path");
            if !self.too_large(figure) {
                self.best = Some((figure, route.clone()));
            }
            return;
        }
        for (arc, &(tail, head)) in self.net.arcs.iter().enumerate() {
            if tail != last || route.nodes.contains(&head) {
                continue;
            }
            self.tried += 1;
            route.nodes.push(head);
            route.arcs.push(arc);
            let figure = self.outlook(route);
            if figure.is_some_and(|figure| !self.too_large(figure)) {
                self.descend(route);
            }
            route.nodes.pop();
            route.arcs.pop();
        }
    }
}

/// Search's answer with a limit: row 19 if the rule tries more arcs.
pub fn within(limit: u32, answer: &Result<Sought, Refused>) -> Result<Sought, Refused> {
    match answer {
        Ok(found) if found.tried > limit => Err((19, limit)),
        _ => answer.clone(),
    }
}

/// Limits to try where the rule comes to this answer: below its count of arcs, at it and above it.
pub fn limits(answer: &Result<Sought, Refused>) -> [u32; 4] {
    let tried = answer.as_ref().map_or(1, |found| found.tried);
    [0, tried - 1, tried, u32::MAX]
}

/// The largest deviation, and the lowest-numbered column that has it.
fn greatest(deviations: &[u32]) -> (u32, u32) {
    let figure = *deviations.iter().max().expect("a column");
    let index = deviations
        .iter()
        .position(|&each| each == figure)
        .expect("it is attained");
    (figure, index as u32 + 1)
}

/// Rows 1 to 9 on an image: the lists that it holds, or the refusal.
pub fn check(image: &[u8]) -> Result<Net, Refused> {
    if image.len() < 24 {
        return Err((1, 0));
    }
    let two = |at: usize| u32::from(u16::from_le_bytes([image[at], image[at + 1]]));
    let four = |at: usize| two(at) + (two(at + 2) << 16);
    let edition = two(0);
    check_edition(edition)?;
    let (n, m, k) = (two(2), two(4), two(6));
    check_sizes(n, m as usize, k as usize)?;
    let total = 24 + 4 * m + 4 * m * k;
    if [four(8), four(12), four(16), four(20)] != [24, 24 + 4 * m, total, 0] {
        return Err((4, 0));
    }
    if image.len() != total as usize {
        return Err((5, 0));
    }
    let (m, k) = (m as usize, k as usize);
    let arcs: Vec<_> = (0..m)
        .map(|arc| (two(24 + 4 * arc), two(26 + 4 * arc)))
        .collect();
    let cost = |column: usize, arc: usize| {
        let number = four(24 + 4 * m + 4 * m * column + 4 * arc);
        (number != u32::MAX).then_some(number)
    };
    let columns = (0..k)
        .map(|column| (0..m).map(|arc| cost(column, arc)).collect())
        .collect();
    let net = Net {
        edition,
        n,
        arcs,
        columns,
    };
    check_content(&net)?;
    Ok(net)
}

/// The rows of Build on lists.
pub fn check_lists(net: &Net) -> Result<(), Refused> {
    let m = net.arcs.len();
    check_edition(net.edition)?;
    check_sizes(net.n, m, net.columns.len())?;
    if net.columns.iter().any(|column| column.len() != m) {
        return Err((4, 0));
    }
    check_content(net)
}

/// Row 2.
fn check_edition(edition: u32) -> Result<(), Refused> {
    if edition == 1 || edition == 2 {
        Ok(())
    } else {
        Err((2, 0))
    }
}

/// Row 3.
fn check_sizes(n: u32, m: usize, k: usize) -> Result<(), Refused> {
    let right = (2..=200).contains(&n) && m <= 1_000 && (1..=8).contains(&k);
    if right {
        Ok(())
    } else {
        Err((3, 0))
    }
}

/// Rows 6 to 9: the first arc in error, then the first cost.
fn check_content(net: &Net) -> Result<(), Refused> {
    let mut before = (0, 0);
    for (arc, &(tail, head)) in (0..).zip(&net.arcs) {
        if !net.has_node(tail) || !net.has_node(head) {
            return Err((6, arc));
        }
        if tail == head {
            return Err((7, arc));
        }
        if (tail, head) <= before {
            return Err((8, arc));
        }
        before = (tail, head);
    }
    let forbidden = |cost: &Option<u32>| cost.map_or(net.edition == 1, |cost| cost > 1_000_000);
    match net.columns.iter().flatten().position(forbidden) {
        Some(index) => Err((9, index as u32)),
        None => Ok(()),
    }
}
