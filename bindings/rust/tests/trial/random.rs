//! Every call on drawn networks, held to the enumeration.

use crate::draw::{self, Draw};
use crate::plain::{limits, within, Chosen, Net, Query, Sought};
use crate::tally::Tally;
use vihrolom::{Choice, Network, Path, Search, State};

const NETWORKS: u32 = 50_000;

#[test]
fn calls_agree_with_the_enumeration_on_random_networks() {
    let mut draw = Draw::new(1);
    let mut tally = Tally::default();
    for _ in 0..NETWORKS {
        let net = draw::network(&mut draw);
        let network = Network::build(net.edition, net.n, &net.arcs, &net.columns)
            .expect("an admitted network");
        assert_eq!(network.image(), net.image(), "{net:?}");
        for _ in 0..2 {
            hold_calls(&net, &network, &mut draw, &mut tally);
        }
    }
    let kinds = [
        "result",
        "settled",
        "open",
        "paths in the column, none in all",
        "refusal 10",
        "refusal 11",
        "refusal 12",
        "refusal 14",
        "refusal 15",
        "refusal 19",
    ];
    tally.report("random networks", 22 * NETWORKS, &kinds);
}

/// Holds each call on a network to the enumeration, with drawn numbers.
pub fn hold_calls(net: &Net, network: &Network, draw: &mut Draw, tally: &mut Tally) {
    let asked = draw::asked(net, draw);
    let draw::Asked {
        column,
        start,
        goal,
        k,
    } = asked;
    let query = Query::new(net, start, goal);
    let about = (net, asked);

    tally.hold(
        "label",
        network.label(column, goal),
        net.label(column, goal),
        &about,
    );

    let got = network.shortest(column, start, goal).map(nodes_and_cost);
    tally.hold("shortest", got, query.shortest(column), &about);

    let got = network.rank(column, start, goal, k);
    let got = got.map(|paths| paths.into_iter().map(nodes_and_cost).collect());
    tally.hold("rank", got, query.rank(column, k), &about);

    let got = network.robust(column, start, goal, k).map(chosen);
    if let Ok(chosen) = &got {
        tally.saw(if chosen.floor.is_none() {
            "settled"
        } else {
            "open"
        });
    }
    let expected = query.robust(column, k);
    if expected == Err((15, 0)) && query.rank(column, k).is_ok() {
        tally.saw("paths in the column, none in all");
    }
    tally.hold("robust", got, expected, &about);

    let expected = query.search();
    for limit in limits(&expected) {
        let got = network.search(start, goal, limit).map(sought);
        tally.hold("search", got, within(limit, &expected), &(about, limit));
    }

    let got = network.find(start, goal);
    let got = got.map(|found| (found.index, found.looks));
    tally.hold("find", got, Ok(net.find(start, goal)), &about);

    let paths = query.lists();
    for _ in 0..3 {
        let list = draw::list(net, &paths, draw);
        let got = network.regret(start, goal, &list);
        let got = got.map(|regret| (regret.figure, regret.worst_column));
        tally.hold("regret", got, query.regret(&list), &(about, &list));
    }
}

fn nodes_and_cost(path: Path) -> (Vec<u32>, u32) {
    (path.nodes, path.cost)
}

pub fn chosen(choice: Choice) -> Chosen {
    Chosen {
        route: choice.route,
        figure: choice.regret.figure,
        worst: choice.regret.worst_column,
        count: choice.count,
        floor: match choice.state {
            State::Settled => None,
            State::Open { floor } => Some(floor),
        },
    }
}

fn sought(search: Search) -> Sought {
    Sought {
        route: search.route,
        figure: search.regret.figure,
        worst: search.regret.worst_column,
        tried: search.tried,
    }
}
