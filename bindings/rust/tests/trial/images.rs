//! Damaged images, and lists that are no network: each is refused as the plain check says, or it is
//! accepted and then treated as any other.

use crate::draw::{self, Draw};
use crate::lent::{reply_of, Lent};
use crate::plain::{self, Net, Refused};
use crate::random::hold_calls;
use crate::tally::Tally;
use vihrolom::{calls, Network, Refusal};

const IMAGES: u32 = 30_000;

#[test]
fn damaged_images_are_refused_as_the_plain_check_says() {
    let mut draw = Draw::new(2);
    let mut tally = Tally::default();
    for _ in 0..IMAGES {
        let net = draw::network(&mut draw);
        let mut image = net.image();
        for _ in 0..draw.between(1, 2) {
            damage(&net, &mut image, &mut draw);
        }
        let expected = plain::check(&image);
        let got = Network::from_image(image.as_slice());
        if let Ok(network) = &got {
            assert_eq!(network.image(), image);
        }
        tally.hold("check", read_back(&got), expected.clone(), &image);
        match (got, expected) {
            (Ok(network), Ok(net)) => hold_calls(&net, &network, &mut draw, &mut tally),
            (_, Err(refused)) => hold_refused(&image, refused),
            (Err(_), Ok(_)) => unreachable!("they were held to each other"),
        }
    }
    tally.report("damaged images", IMAGES, &kinds(1..=9));
}

#[test]
fn lists_that_are_no_network_are_refused_as_the_plain_check_says() {
    let mut draw = Draw::new(3);
    let mut tally = Tally::default();
    for _ in 0..IMAGES {
        let mut net = draw::network(&mut draw);
        let n = net.n;
        for _ in 0..draw.between(1, 2) {
            spoil(&mut net, n, &mut draw);
        }
        let got = Network::build(net.edition, net.n, &net.arcs, &net.columns);
        let expected = plain::check_lists(&net).map(|()| net.clone());
        tally.hold("build", read_back(&got), expected, &net);
        if let Ok(network) = got {
            assert_eq!(network.image(), net.image());
            let (edition, n) = (network.edition(), network.nodes());
            let again = Network::build(edition, n, network.arcs(), network.columns());
            assert_eq!(again, Ok(network.clone()));
            hold_calls(&net, &network, &mut draw, &mut tally);
        }
    }
    tally.report("lists", IMAGES, &kinds([2, 3, 4, 6, 7, 8, 9]));
}

/// The kinds of answers that a test must meet.
fn kinds(rows: impl IntoIterator<Item = u32>) -> Vec<String> {
    rows.into_iter()
        .map(|row| format!("refusal {row}"))
        .chain(["result".into()])
        .collect()
}

/// The lists of an accepted network, or the refusal.
fn read_back(accepted: &Result<Network, Refusal>) -> Result<Net, Refusal> {
    let network = accepted.as_ref().map_err(|&refusal| refusal)?;
    let (arcs, columns) = (network.arcs().to_vec(), network.columns().to_vec());
    Ok(Net {
        edition: network.edition(),
        n: network.nodes(),
        arcs,
        columns,
    })
}

/// Every call on a refused image gives its refusal and changes no slice, whatever else is given.
fn hold_refused(image: &[u8], refused: Refused) {
    let (mut nodes, mut costs, mut work) = (Lent::new(24), Lent::new(100), Lent::new(600));
    let expected = reply_of(Err(&refused));
    assert_eq!(calls::check(image), expected);
    assert_eq!(calls::label(image, 0, 1, costs.slice()), expected);
    assert_eq!(calls::shortest(image, 1, 0, 2, nodes.slice()), expected);
    assert_eq!(calls::regret(image, 1, 1, &[1, 2]), expected);
    assert_eq!(calls::search(image, 1, 2, 0, nodes.slice()), expected);
    let (rows, in_costs, in_work) = (nodes.slice(), costs.slice(), work.slice());
    assert_eq!(
        calls::rank(image, 1, 1, 2, 3, rows, in_costs, in_work),
        expected
    );
    assert_eq!(
        calls::robust(image, 1, 1, 2, 300, nodes.slice(), work.slice()),
        expected
    );
    assert_eq!(calls::unpack(image, nodes.slice(), costs.slice()), expected);
    assert_eq!(calls::find(image, 1, 2), expected);
    let mut copy = image.to_vec();
    assert_eq!(calls::update(&mut copy, &[9_999, 0, 0, 0]), expected);
    assert_eq!(copy, image);
    nodes.assert_holds(&[]);
    costs.assert_holds(&[]);
    work.assert_holds(&[]);
}

/// Changes an image in one place.
fn damage(net: &Net, image: &mut Vec<u8>, draw: &mut Draw) {
    let m = net.arcs.len();
    match draw.between(1, 6) {
        1 => resize(image, draw),
        2 if image.len() >= 24 => put(
            image,
            draw,
            &[0, 2, 4, 6],
            2,
            &[0, 1, 2, 7, 8, 9, 200, 201, 1_001],
        ),
        3 if image.len() >= 24 => put(image, draw, &[8, 12, 16, 20], 4, &[0, 1, 24, 28, 65_560]),
        4 if m > 0 && image.len() >= 24 + 4 * m => {
            let ends: Vec<usize> = (0..2 * m).map(|end| 24 + 2 * end).collect();
            let node = draw.between(0, net.n + 1);
            put(image, draw, &ends, 2, &[node]);
        }
        5 if m > 0 && image.len() >= net.image().len() => {
            let costs: Vec<usize> = (0..m * net.columns.len())
                .map(|i| 24 + 4 * m + 4 * i)
                .collect();
            let values = [0, 1_000_000, 1_000_001, u32::MAX - 1, u32::MAX];
            put(image, draw, &costs, 4, &values);
        }
        _ if !image.is_empty() => {
            let at = draw.position(image.len());
            image[at] = draw.between(0, 255) as u8;
        }
        _ => {}
    }
}

/// Cuts an image off, takes a byte out, or adds one.
fn resize(image: &mut Vec<u8>, draw: &mut Draw) {
    let at = draw.position(image.len() + 1);
    match draw.between(1, 4) {
        1 => image.truncate(at),
        2 => image.truncate(at.min(23)),
        3 if at < image.len() => drop(image.remove(at)),
        _ => image.insert(at, draw.between(0, 255) as u8),
    }
}

/// Puts one of the values, low byte first, in one of the places.
fn put(image: &mut [u8], draw: &mut Draw, places: &[usize], width: usize, values: &[u32]) {
    let at = draw.pick(places);
    let value = draw.pick(values);
    image[at..at + width].copy_from_slice(&value.to_le_bytes()[..width]);
}

/// Changes lists, which had n nodes at first, in one place.
fn spoil(net: &mut Net, n: u32, draw: &mut Draw) {
    let (m, k) = (net.arcs.len(), net.columns.len());
    match draw.between(0, 10) {
        0 => net.edition = draw.pick(&[0, 1, 2, 3, 65_537, u32::MAX]),
        1 => net.n = draw.pick(&[0, 1, 200, 201, 65_536 + n, u32::MAX]),
        2 => net.columns.resize(draw.position(12), vec![Some(0); m]),
        3 if m > 0 => net.arcs[draw.position(m)].0 = draw::node(n, draw),
        4 if m > 0 => net.arcs[draw.position(m)].1 = draw::node(n, draw),
        5 if m > 1 => net.arcs.swap(draw.position(m), draw.position(m)),
        6 if m > 0 => net
            .arcs
            .insert(draw.position(m), net.arcs[draw.position(m)]),
        7 if k > 0 => move_cost(net, draw),
        8 => lengthen(net, draw.pick(&[1_000, 1_001, 65_536 + m])),
        9 if k > 0 => raise_cost(&mut net.columns[draw.position(k)], draw),
        _ => net.columns.push(vec![Some(0); m]),
    }
}

/// Takes the last cost of one column and gives it to another, or to the same.
fn move_cost(net: &mut Net, draw: &mut Draw) {
    let k = net.columns.len();
    if let Some(cost) = net.columns[draw.position(k)].pop() {
        net.columns[draw.position(k)].push(cost);
    }
}

/// Gives one arc of a column, if it has any, the largest cost or one above it, or closes it.
fn raise_cost(column: &mut [Option<u32>], draw: &mut Draw) {
    if !column.is_empty() {
        let costs = [1_000_000, 1_000_001, u32::MAX - 1, u32::MAX].map(Some);
        let at = draw.position(column.len());
        column[at] = draw.pick(&[costs[0], costs[1], costs[2], costs[3], None]);
    }
}

/// Gives a network so many arcs, among the first of all that 200 nodes can have.
fn lengthen(net: &mut Net, m: usize) {
    let all = (1..=200).flat_map(|tail| (1..=200).map(move |head| (tail, head)));
    net.arcs = all
        .filter(|(tail, head)| tail != head)
        .cycle()
        .take(m)
        .collect();
    for column in &mut net.columns {
        column.resize(m, Some(0));
    }
}
