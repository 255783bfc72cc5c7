//! The cases of docs/REFERENCE.md, its refusal table, and what the crate adds to them.

use crate::tally::numbers;
use std::path::Path as FilePath;
use vihrolom::raw::Reply;
use vihrolom::{calls, Choice, Found, Network, Path, Record, Refusal, Regret, Search, State, Week};

const S_ARCS: [(u32, u32); 5] = [(1, 2), (1, 3), (2, 3), (2, 4), (3, 4)];
const S_COLUMNS: [[u32; 5]; 2] = [[2, 5, 1, 6, 2], [4, 1, 2, 1, 7]];

/// Network S (REFERENCE, section 8.1).
fn network_s() -> Network {
    Network::build(1, 4, &S_ARCS, &S_COLUMNS).expect("network S")
}

fn path(nodes: &[u32], cost: u32) -> Path {
    Path {
        nodes: nodes.to_vec(),
        cost,
    }
}

fn choice(route: &[u32], figure: u32, worst_column: u32, count: u32, state: State) -> Choice {
    Choice {
        route: route.to_vec(),
        regret: Regret {
            figure,
            worst_column,
        },
        count,
        state,
    }
}

/// A file of the repository's examples.
fn example(name: &str) -> Vec<u8> {
    let file = FilePath::new(env!("CARGO_MANIFEST_DIR"))
        .join("../../examples")
        .join(name);
    std::fs::read(&file).unwrap_or_else(|error| panic!("{}: {error}", file.display()))
}

#[test]
fn network_s_is_the_image_of_84_bytes() {
    let s = network_s();
    assert_eq!(s.image().len(), 84);
    assert_eq!(s.image(), example("S.image"));
    assert_eq!(Network::from_image(s.image()), Ok(s.clone()));
    assert_eq!((s.edition(), s.nodes(), s.arcs()), (1, 4, &S_ARCS[..]));
    assert_eq!(s.columns(), S_COLUMNS.map(|column| column.map(Some)));
}

#[test]
fn ranked_lists_of_s() {
    let s = network_s();
    let in_column_1 = [
        path(&[1, 2, 3, 4], 5),
        path(&[1, 3, 4], 7),
        path(&[1, 2, 4], 8),
    ];
    let in_column_2 = [
        path(&[1, 2, 4], 5),
        path(&[1, 3, 4], 8),
        path(&[1, 2, 3, 4], 13),
    ];
    assert_eq!(s.rank(1, 1, 4, 5), Ok(in_column_1.to_vec()));
    assert_eq!(s.rank(2, 1, 4, 5), Ok(in_column_2.to_vec()));
    assert_eq!(s.rank(1, 1, 4, 256), Ok(in_column_1.to_vec()));
    assert_eq!(s.rank(1, 1, 4, 2), Ok(in_column_1[..2].to_vec()));
    assert_eq!(s.shortest(1, 1, 4), Ok(in_column_1[0].clone()));
    assert_eq!(s.shortest(2, 1, 4), Ok(in_column_2[0].clone()));
}

#[test]
fn labels_of_s() {
    let s = network_s();
    assert_eq!(s.label(1, 4), Ok(vec![Some(5), Some(3), Some(2), Some(0)]));
    assert_eq!(s.label(1, 1), Ok(vec![Some(0), None, None, None]));
}

#[test]
fn figures_of_s() {
    let s = network_s();
    assert_eq!(
        s.regret(1, 4, &[1, 2, 4]),
        Ok(Regret {
            figure: 3,
            worst_column: 1
        })
    );
    assert_eq!(
        s.regret(1, 4, &[1, 3, 4]),
        Ok(Regret {
            figure: 3,
            worst_column: 2
        })
    );
    assert_eq!(
        s.regret(1, 4, &[1, 2, 3, 4]),
        Ok(Regret {
            figure: 8,
            worst_column: 2
        })
    );
}

#[test]
fn robust_routes_of_s() {
    let s = network_s();
    let open = State::Open { floor: 2 };
    assert_eq!(
        s.robust(1, 1, 4, 2),
        Ok(choice(&[1, 3, 4], 3, 2, 2, State::Settled))
    );
    assert_eq!(
        s.robust(1, 1, 4, 1),
        Ok(choice(&[1, 2, 3, 4], 8, 2, 1, open))
    );
    assert_eq!(
        s.robust(2, 1, 4, 1),
        Ok(choice(&[1, 2, 4], 3, 1, 1, State::Settled))
    );
}

fn search(route: &[u32], figure: u32, worst_column: u32, tried: u32) -> Result<Search, Refusal> {
    Ok(Search {
        route: route.to_vec(),
        regret: Regret {
            figure,
            worst_column,
        },
        tried,
    })
}

#[test]
fn searches_of_s() {
    let s = network_s();
    assert_eq!(s.search(1, 4, 5), search(&[1, 2, 4], 3, 1, 5));
    assert_eq!(s.search(1, 4, u32::MAX), search(&[1, 2, 4], 3, 1, 5));
    assert_eq!(s.search(2, 4, 3), search(&[2, 4], 3, 1, 3));
    assert_eq!(s.search(1, 4, 4), Err(Refusal::TooManyArcs(4)));
    assert_eq!(s.search(1, 4, 0), Err(Refusal::TooManyArcs(0)));
    assert_eq!(s.search(4, 1, 0), Err(Refusal::NoPath));
    assert_eq!(s.search(1, 1, 0), Err(Refusal::WrongEnds));
    let closed = network_s_closed();
    assert_eq!(closed.search(1, 4, 4), search(&[1, 2, 4], 3, 1, 4));
    assert_eq!(closed.search(3, 4, 4), Err(Refusal::NoPath));
}

fn found(index: Option<u32>, looks: u32) -> Result<Found, Refusal> {
    Ok(Found { index, looks })
}

fn record(arc: u32, column: u32, cost: impl Into<Option<u32>>, stamp: u32) -> Record {
    Record {
        arc,
        column,
        cost: cost.into(),
        stamp,
    }
}

#[test]
fn updates_of_s() {
    let s = network_s();
    assert_eq!(s.update(&[]), Ok(s.clone()));
    let list = [
        record(0, 1, 8, 5),
        record(4, 2, 3, 0),
        record(0, 1, 9, 5),
        record(0, 1, 7, 4),
    ];
    let columns = [[9, 5, 1, 6, 2], [4, 1, 2, 1, 3]];
    assert_eq!(s.update(&list), Network::build(1, 4, &S_ARCS, &columns));
    // each record is examined, also one that does not count
    let refused = |list: &[Record]| s.update(list).map(|_| ());
    let first = record(0, 1, 8, 5);
    assert_eq!(
        refused(&[first, record(5, 3, None, 0)]),
        Err(Refusal::WrongRecordArc(1))
    );
    assert_eq!(
        refused(&[first, record(0, 3, None, 0)]),
        Err(Refusal::WrongRecordColumn(1))
    );
    assert_eq!(
        refused(&[first, first, record(0, 1, None, 0)]),
        Err(Refusal::CostTooLarge(2))
    );
    assert_eq!(
        refused(&[record(0, 1, 1_000_001, 0), record(5, 1, 0, 0)]),
        Err(Refusal::CostTooLarge(0))
    );
    let mut image = s.image().to_vec();
    assert_eq!(
        calls::update(&mut image, &[0, 1, 8]).values(),
        Err(Refusal::WrongField)
    );
    assert_eq!(image, s.image());
    // in edition 2 a record closes an arc, and another opens it again
    let open = Network::build(2, 4, &S_ARCS, &S_COLUMNS).expect("network S in edition 2");
    let closed = open.update(&[record(1, 2, None, 1)]).expect("closed");
    assert_eq!(closed.columns()[1][1], None);
    assert_eq!(closed.update(&[record(1, 2, 1, 1)]), Ok(open));
}

#[test]
fn arcs_of_s() {
    let s = network_s();
    assert_eq!(s.find(2, 3), found(Some(2), 1));
    assert_eq!(s.find(1, 2), found(Some(0), 2));
    assert_eq!(s.find(3, 4), found(Some(4), 3));
    assert_eq!(s.find(4, 1), found(None, 3));
    assert_eq!(s.find(0, 0), found(None, 2));
    assert_eq!(s.find(1, 65_536 + 2), found(None, 3));
    assert_eq!(s.find(u32::MAX, u32::MAX), found(None, 3));
}

#[test]
fn refusals_of_s() {
    let s = network_s();
    assert_eq!(s.shortest(1, 4, 1), Err(Refusal::NoPath));
    assert_eq!(s.rank(1, 4, 1, 5), Err(Refusal::NoPath));
    assert_eq!(s.robust(1, 4, 1, 5), Err(Refusal::NoPath));
    assert_eq!(s.regret(1, 4, &[1, 2]), Err(Refusal::NotAPath(2)));
    assert_eq!(s.regret(1, 4, &[1, 4]), Err(Refusal::NotAPath(1)));
    assert_eq!(s.regret(1, 4, &[]), Err(Refusal::NotAPath(0)));
    assert_eq!(s.regret(1, 4, &[2, 4]), Err(Refusal::NotAPath(0)));
    assert_eq!(s.regret(4, 1, &[4, 1]), Err(Refusal::NotAPath(1)));
}

/// What a week has: its answer, the closed ones among the five arcs of S, and their number.
fn shown(week: &Week) -> (Option<Choice>, Vec<u32>, u32) {
    let closed = (0..5).filter(|&arc| week.is_closed(arc)).collect();
    (week.answer(), closed, week.closed_roads())
}

#[test]
fn a_week_of_s() {
    let s = network_s();
    let by_2 = |figure| Some(choice(&[1, 2, 4], figure, 1, 1, State::Settled));
    let mut week = s.week(2, 1, 4, 5).expect("a week");
    assert_eq!(shown(&week), (by_2(3), vec![], 0));
    // Beside the route, and no best changes.
    assert_eq!(week.close(1), Ok(()));
    assert_eq!(shown(&week), (by_2(3), vec![1], 1));
    // Nothing changes.
    assert_eq!((week.close(1), week.reopen(0)), (Ok(()), Ok(())));
    assert_eq!(shown(&week), (by_2(3), vec![1], 1));
    // On the route.
    assert_eq!(week.close(3), Ok(()));
    let by_2_and_3 = choice(&[1, 2, 3, 4], 0, 1, 1, State::Settled);
    assert_eq!(shown(&week), (Some(by_2_and_3), vec![1, 3], 2));
    assert_eq!(week.close(4), Ok(()));
    assert_eq!(shown(&week), (None, vec![1, 3, 4], 3));
    assert_eq!(week.reopen(3), Ok(()));
    assert_eq!(shown(&week), (by_2(0), vec![1, 4], 2));
    assert_eq!((week.reopen(4), week.reopen(1)), (Ok(()), Ok(())));
    assert_eq!(week, s.week(2, 1, 4, 5).expect("a week"));
    // Beside the route, and the best of column 1 changes.
    assert_eq!(week.close(2), Ok(()));
    assert_eq!(shown(&week), (by_2(1), vec![2], 1));
}

#[test]
fn weeks_without_a_settled_answer() {
    let s = network_s();
    let mut week = s.week(1, 1, 4, 1).expect("a week");
    let open = |figure| {
        Some(choice(
            &[1, 2, 3, 4],
            figure,
            2,
            1,
            State::Open { floor: 2 },
        ))
    };
    assert_eq!(shown(&week), (open(8), vec![], 0));
    assert_eq!(week.close(3), Ok(()));
    assert_eq!(shown(&week), (open(5), vec![3], 1));
    let mut week = s.week(1, 4, 1, 5).expect("a week");
    assert_eq!(week.close(0), Ok(()));
    assert_eq!(shown(&week), (None, vec![0], 1));
}

#[test]
fn refusals_in_a_week() {
    let s = network_s();
    let refused = |column, start, goal, k| s.week(column, start, goal, k).map(|_| ());
    assert_eq!(refused(0, 1, 1, 0), Err(Refusal::WrongEnds));
    assert_eq!(refused(3, 4, 1, 0), Err(Refusal::WrongColumn));
    assert_eq!(refused(1, 4, 1, 0), Err(Refusal::WrongPathCount));
    assert_eq!(refused(1, 1, 4, u32::MAX), Err(Refusal::WrongPathCount));
    let mut week = s.week(2, 1, 4, 5).expect("a week");
    assert_eq!(week.close(1), Ok(()));
    let before = week.clone();
    for arc in [5, 1_000, u32::MAX] {
        assert_eq!(week.close(arc), Err(Refusal::WrongEventArc(arc)));
        assert_eq!(week.reopen(arc), Err(Refusal::WrongEventArc(arc)));
        assert!(!week.is_closed(arc));
    }
    assert_eq!(week, before);
    let no_arcs = Network::build(1, 2, &[], &[[0; 0]]).expect("a network");
    let mut week = no_arcs.week(1, 1, 2, 1).expect("a week");
    assert_eq!(week.close(0), Err(Refusal::WrongEventArc(0)));
    assert_eq!(
        Week::from_bytes(&[255; Week::BYTES], &no_arcs, 1, 1, 2, 1).map(|week| week.closed_roads()),
        Ok(0)
    );
}

#[test]
fn a_week_is_saved_and_loaded() {
    let s = network_s();
    let mut week = s.week(2, 1, 4, 5).expect("a week");
    assert_eq!((week.close(1), week.close(0)), (Ok(()), Ok(())));
    let bytes = week.to_bytes();
    assert_eq!((bytes[0], bytes[528]), (3, 15));
    assert_eq!(Week::from_bytes(&bytes, &s, 2, 1, 4, 5), Ok(week));
    assert_eq!(
        Week::from_bytes(&bytes, &s, 3, 1, 4, 5),
        Err(Refusal::WrongColumn)
    );
    // A state that no call has made is read as it is: bits from m on close nothing, and the length is capped.
    let odd = Week::from_bytes(&[255; Week::BYTES], &s, 2, 1, 4, 5).expect("a week");
    assert_eq!(shown(&odd), (None, vec![0, 1, 2, 3, 4], 5));
    assert_eq!(odd.to_bytes(), [255; Week::BYTES]);
    let mut bytes = [255; Week::BYTES];
    (bytes[0], bytes[528]) = (0b1110_0000, 1);
    bytes[529..532].fill(0);
    let mut odd = Week::from_bytes(&bytes, &s, 2, 1, 4, 5).expect("a week");
    let answer = odd.answer().expect("a settled answer");
    assert_eq!((answer.route, answer.count), (vec![65_535; 200], u32::MAX));
    assert_eq!((odd.close(1), odd.closed_roads()), (Ok(()), 1));
    bytes[0] |= 2;
    assert_eq!(odd.to_bytes(), bytes);
    assert_eq!((odd.close(3), odd.closed_roads()), (Ok(()), 2));
    assert_eq!(
        odd.answer().map(|answer| answer.route),
        Some(vec![1, 2, 3, 4])
    );
    assert_eq!(
        odd.to_bytes()[..128],
        [&[0b1110_1010][..], &[255; 127]].concat()
    );
}

/// S in edition 2, with the arc 3→4 closed in column 2.
fn network_s_closed() -> Network {
    let mut columns = S_COLUMNS.map(|column| column.map(Some));
    columns[1][4] = None;
    Network::build(2, 4, &S_ARCS, &columns).expect("an arc may be closed")
}

#[test]
fn an_arc_is_closed_in_one_column() {
    let s = network_s_closed();
    assert_eq!((s.edition(), s.columns()[1][4]), (2, None));
    assert_eq!(s.image()[80..], [255; 4]);
    assert_eq!(Network::from_image(s.image()), Ok(s.clone()));
    // In column 1 all is as it was.
    assert_eq!(s.label(1, 4), network_s().label(1, 4));
    assert_eq!(s.rank(1, 1, 4, 5), network_s().rank(1, 1, 4, 5));
    assert_eq!(s.shortest(1, 3, 4), Ok(path(&[3, 4], 2)));
    // In column 2 the arc is not there.
    assert_eq!(s.label(2, 4), Ok(vec![Some(5), Some(1), None, Some(0)]));
    assert_eq!(s.rank(2, 1, 4, 5), Ok(vec![path(&[1, 2, 4], 5)]));
    assert_eq!(s.shortest(2, 3, 4), Err(Refusal::NoPath));
    // A route must be open in both; the best of column 1 is still that of all paths there.
    let regret = Regret {
        figure: 3,
        worst_column: 1,
    };
    assert_eq!(s.regret(1, 4, &[1, 2, 4]), Ok(regret));
    assert_eq!(s.regret(1, 4, &[1, 3, 4]), Err(Refusal::NotAPath(2)));
    assert_eq!(
        s.robust(1, 1, 4, 5),
        Ok(choice(&[1, 2, 4], 3, 1, 1, State::Settled))
    );
    assert_eq!(s.robust(1, 3, 4, 5), Err(Refusal::NoPath));
}

/// The mark as a number is no cost, not even in edition 2, and only edition 2 has closed arcs.
#[test]
fn only_edition_2_has_closed_arcs() {
    let closed = [[Some(1)], [None]];
    let one_arc = [(1, 2)];
    assert_eq!(
        Network::build(1, 2, &one_arc, &closed),
        Err(Refusal::CostTooLarge(1))
    );
    for cost in [1_000_001, u32::MAX - 1, u32::MAX] {
        for edition in [1, 2] {
            assert_eq!(
                Network::build(edition, 2, &one_arc, &[[0], [cost]]),
                Err(Refusal::CostTooLarge(1))
            );
        }
    }
    for edition in [0, 3, 65_537, u32::MAX] {
        assert_eq!(
            Network::build(edition, 1, &one_arc, &closed),
            Err(Refusal::WrongEdition)
        );
    }
    let open = Network::build(2, 2, &one_arc, &[[1], [1_000_000]]).expect("no arc need be closed");
    assert_eq!(open.edition(), 2);
}

#[test]
fn a_ring_of_cost_0_is_not_gone_round() {
    let arcs = [(1, 3), (2, 3), (2, 4), (3, 2), (3, 4)];
    let network = Network::build(1, 4, &arcs, &[[0; 5]]).expect("a network");
    assert_eq!(
        network.rank(1, 1, 4, 5),
        Ok(vec![path(&[1, 3, 2, 4], 0), path(&[1, 3, 4], 0)])
    );
}

#[test]
fn two_nodes_without_an_arc() {
    let network = Network::build(1, 2, &[], &[[0; 0]]).expect("a network");
    assert_eq!(network.image().len(), 24);
    assert_eq!(network.columns(), [[]]);
    assert_eq!(network.robust(1, 1, 2, 1), Err(Refusal::NoPath));
    assert_eq!(network.label(1, 2), Ok(vec![None, Some(0)]));
    assert_eq!(network.find(1, 2), found(None, 0));
}

#[test]
fn two_hundred_nodes_in_a_line() {
    let arcs: Vec<(u32, u32)> = (1..200).map(|tail| (tail, tail + 1)).collect();
    let network = Network::build(1, 200, &arcs, &[vec![1_000_000; 199]]).expect("a network");
    let line: Vec<u32> = (1..=200).collect();
    assert_eq!(network.shortest(1, 1, 200), Ok(path(&line, 199_000_000)));
    assert_eq!(
        network.rank(1, 1, 200, 256),
        Ok(vec![path(&line, 199_000_000)])
    );
    assert_eq!(
        network.robust(1, 1, 200, 256),
        Ok(choice(&line, 0, 1, 1, State::Settled))
    );
    assert_eq!(network.search(1, 200, 199), search(&line, 0, 1, 199));
    assert_eq!(
        network.label(1, 200).map(|labels| labels[0]),
        Ok(Some(199_000_000))
    );
    assert_eq!(network.label(1, 1).map(|labels| labels[199]), Ok(None));
}

#[test]
fn the_longest_image_is_accepted() {
    let heads =
        (1..=200).flat_map(|tail| (1..=5).map(move |step| (tail, (tail + step - 1) % 200 + 1)));
    let mut arcs: Vec<(u32, u32)> = heads.collect();
    arcs.sort_unstable();
    let columns = vec![vec![1_000_000; 1_000]; 8];
    let network = Network::build(1, 200, &arcs, &columns).expect("a network");
    assert_eq!(network.image().len(), 36_024);
    assert_eq!(
        network.rank(8, 1, 200, 256).map(|paths| paths.len()),
        Ok(256)
    );
    let (tail, head) = arcs[999];
    assert_eq!(network.find(tail, head), found(Some(999), 10));
    assert_eq!(network.find(tail, head + 1), found(None, 10));
}

#[test]
fn examples_give_their_sheets() {
    for name in ["S", "close", "apart"] {
        let network = Network::from_image(example(&format!("{name}.image"))).expect(name);
        let choice = network.robust(1, 1, network.nodes(), 48).expect(name);
        assert_eq!(
            format!("{choice}\n").into_bytes(),
            example(&format!("{name}.sheet")),
            "{name}"
        );
    }
}

/// The image of S with one byte changed.
fn changed(offset: usize, byte: u8) -> Result<Network, Refusal> {
    let mut image = network_s().image().to_vec();
    image[offset] = byte;
    Network::from_image(image)
}

#[test]
fn the_examples_of_the_refusal_table() {
    let s = network_s();
    let one_more = [s.image(), &[0]].concat();
    let refused = |result: Result<Network, Refusal>| result.map_err(numbers).unwrap_err();
    assert_eq!(refused(Network::from_image([])), (1, 0));
    assert_eq!(refused(changed(0, 7)), (2, 0));
    assert_eq!(refused(changed(2, 1)), (3, 0));
    assert_eq!(refused(changed(20, 1)), (4, 0));
    assert_eq!(refused(Network::from_image(one_more)), (5, 0));
    assert_eq!(refused(Network::build(1, 4, &[(0, 2)], &[[1]])), (6, 0));
    assert_eq!(
        refused(Network::build(1, 4, &[(1, 2), (2, 2)], &[[1, 1]])),
        (7, 1)
    );
    assert_eq!(
        refused(Network::build(1, 4, &[(1, 2), (1, 2)], &[[1, 1]])),
        (8, 1)
    );
    assert_eq!(
        refused(Network::build(1, 4, &[(1, 2)], &[[1], [1_000_001]])),
        (9, 1)
    );
    assert_eq!(s.shortest(1, 1, 1), Err(Refusal::WrongEnds));
    assert_eq!(s.shortest(0, 1, 4), Err(Refusal::WrongColumn));
    assert_eq!(s.robust(1, 1, 4, 257), Err(Refusal::WrongPathCount));
    let reply = calls::robust(s.image(), 1, 1, 4, 1, &mut [0; 4], &mut []);
    assert_eq!(reply.values(), Err(Refusal::SliceTooShort));
    assert_eq!(s.regret(1, 4, &[1, 4]), Err(Refusal::NotAPath(1)));
    assert_eq!(s.shortest(1, 4, 1), Err(Refusal::NoPath));
}

#[test]
fn the_lowest_number_that_applies_is_given() {
    let s = network_s();
    assert_eq!(s.rank(0, 1, 1, 0), Err(Refusal::WrongEnds));
    assert_eq!(s.rank(0, 4, 1, 0), Err(Refusal::WrongColumn));
    assert_eq!(s.rank(1, 4, 1, 0), Err(Refusal::WrongPathCount));
    let short = calls::rank(s.image(), 1, 4, 1, 1, &mut [], &mut [], &mut []);
    assert_eq!(short.values(), Err(Refusal::SliceTooShort));
    let falling = Network::build(1, 4, &[(1, 2), (1, 2), (0, 2)], &[[1_000_001; 3]]);
    assert_eq!(falling, Err(Refusal::ArcNotRising(1)));
    let mut image = [0; 100];
    let odd = calls::build(1, 4, 1, &[1, 2, 3], &[1], &mut image);
    assert_eq!(odd.values(), Err(Refusal::WrongField));
    let odd_of_one_node = calls::build(1, 1, 1, &[1, 2, 3], &[1], &mut image);
    assert_eq!(odd_of_one_node.values(), Err(Refusal::SizeOutOfRange));
    let short = calls::build(1, 4, 1, &[1, 2], &[1_000_001], &mut []);
    assert_eq!(short.values(), Err(Refusal::CostTooLarge(0)));
}

/// Numbers that are right in 16 bits and lists of unequal lengths don't slip through.
#[test]
fn what_does_not_fit_is_refused() {
    let s = network_s();
    let no_columns: [[u32; 5]; 0] = [];
    let many_arcs = vec![(1, 2); 65_536 + 1];
    let many_costs = vec![1; many_arcs.len()];
    assert_eq!(
        Network::build(1, 65_536 + 4, &S_ARCS, &S_COLUMNS),
        Err(Refusal::SizeOutOfRange)
    );
    assert_eq!(
        Network::build(1, u32::MAX, &S_ARCS, &S_COLUMNS),
        Err(Refusal::SizeOutOfRange)
    );
    assert_eq!(
        Network::build(1, 4, &S_ARCS, &no_columns),
        Err(Refusal::SizeOutOfRange)
    );
    assert_eq!(
        Network::build(1, 4, &S_ARCS, &[[1; 5]; 9]),
        Err(Refusal::SizeOutOfRange)
    );
    assert_eq!(
        Network::build(1, 4, &many_arcs, &[many_costs]),
        Err(Refusal::SizeOutOfRange)
    );
    let arcs = [(1, 2), (2, 65_536 + 3)];
    assert_eq!(
        Network::build(1, 4, &arcs, &[[1, 1]]),
        Err(Refusal::ArcOutOfRange(1))
    );
    let arcs = [(1, 2), (2, 3)];
    assert_eq!(
        Network::build(1, 4, &arcs, &[vec![1], vec![1, 1, 1]]),
        Err(Refusal::WrongField)
    );
    assert_eq!(
        Network::build(1, 4, &arcs, &[vec![1, 1], vec![1]]),
        Err(Refusal::WrongField)
    );
    assert_eq!(Network::build(1, 4, &[], &[[1]]), Err(Refusal::WrongField));
    assert_eq!(
        s.regret(1, 4, &[65_536 + 1, 3, 4]),
        Err(Refusal::NotAPath(0))
    );
    assert_eq!(
        s.regret(1, 4, &[1, 65_536 + 3, 4]),
        Err(Refusal::NotAPath(1))
    );
    assert_eq!(s.rank(1, 1, 4, u32::MAX), Err(Refusal::WrongPathCount));
    assert_eq!(s.label(65_536 + 1, 4), Err(Refusal::WrongColumn));
    assert_eq!(s.label(1, 65_536 + 4), Err(Refusal::WrongEnds));
}

/// The refusal in the reply with these two numbers.
fn refusal(number: u32, place: u32) -> Refusal {
    Reply {
        refusal: number,
        place,
        ..Reply::default()
    }
    .values()
    .unwrap_err()
}

#[test]
fn each_row_has_its_number_its_place_and_its_words() {
    for number in (1..=15).chain(17..=18) {
        let named = if [6, 7, 8, 9, 14, 17, 18].contains(&number) {
            5
        } else {
            0
        };
        assert_eq!(numbers(refusal(number, 5)), (number, named));
    }
    assert_eq!(
        refusal(10, 0).to_string(),
        "start or goal outside 1..n, or equal"
    );
    assert_eq!(refusal(15, 0).to_string(), "no path exists");
    assert_eq!(numbers(refusal(20, 5)), (20, 5));
    assert_eq!(
        refusal(20, 5).to_string(),
        "an event's arc index is m or more (at 5)"
    );
    assert_eq!(refusal(7, 3).to_string(), "tail equals head (at 3)");
    assert_eq!(
        refusal(19, 7).to_string(),
        "Search's rule tries more arcs than the limit (at 7)"
    );
    assert_eq!(
        refusal(14, 0).to_string(),
        "the node list is no path (at 0)"
    );
    assert_eq!(
        refusal(9, 7).words(),
        "cost above 1,000,000, or an arc closed in edition 1"
    );
}

#[test]
#[should_panic(expected = "refusal 99, which this crate doesn't know")]
fn a_library_with_other_rows_is_not_trusted() {
    refusal(99, 0);
}
