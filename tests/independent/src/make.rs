//! Makes district files from a seed: sound ones of many shapes, and damaged ones.

use crate::damage::{damage_bytes, damage_lines};
use crate::frames::{frame_line, Frame};
use crate::model::{self, Arc, Network, Node, Query, MOST_ARCS, MOST_NODES, TOP_WEIGHT};
use crate::potentials::{lowered, potentials, reversed, shifted, upset_consistency, upset_range};
use crate::random::Random;
use std::ops::Range;

pub struct Made {
    /// What the file is, in a few words.
    pub shape: String,
    pub bytes: Vec<u8>,
}

/// The files that the gate compares.
pub const FIXED_SEEDS: Range<u64> = 0..20_000;

/// One in this many files is large.
pub const LARGE_EVERY: u64 = 64;

pub fn file(seed: u64) -> Made {
    let mut random = Random::new(seed);
    let is_large = seed.is_multiple_of(LARGE_EVERY);
    let (mut shape, mut district) = if is_large {
        large(&mut random, seed / LARGE_EVERY)
    } else if seed % 4 == 3 {
        unquiet(&mut random)
    } else {
        small(&mut random)
    };
    if random.chance(65) {
        cap_some(&mut random, &mut district);
        shape += ", capped";
    }
    let mut lines = district.lines();
    if random.chance(if is_large { 12 } else { 38 }) {
        let times = if random.chance(15) { 2 } else { 1 };
        for _ in 0..times {
            shape = format!("{shape}; {}", damage_lines(&mut random, &mut lines));
        }
    }
    let mut bytes: Vec<u8> = lines.concat();
    if random.chance(8) {
        shape = format!("{shape}; {}", damage_bytes(&mut random, &mut bytes));
    }
    Made { shape, bytes }
}

// ---------------------------------------------------------------- districts

/// A street is one arc, or an arc and its reverse in one frame 05.
#[derive(Clone, Copy)]
struct Street {
    arc: Arc,
    two_way: bool,
}

struct District {
    nodes: Vec<Node>,
    streets: Vec<Street>,
    queries: Vec<Query>,
}

impl District {
    fn lines(&self) -> Vec<Vec<u8>> {
        let arcs = self.streets.iter().map(|street| if street.two_way { 2 } else { 1 }).sum();
        let size = Frame::Size { nodes: self.nodes.len(), arcs };
        let streets = self.streets.iter().map(|street| match street.two_way {
            true => Frame::TwoWay(street.arc),
            false => Frame::OneWay(street.arc),
        });
        let nodes = self.nodes.iter().enumerate();
        let potentials = nodes.map(|(node, &values)| Frame::Potentials { node, values });
        let queries = self.queries.iter().cloned().map(Frame::Query);
        let frames = std::iter::once(size).chain(streets).chain(potentials).chain(queries);
        frames.map(|frame| frame_line(&frame).into_bytes()).collect()
    }
}

fn arcs_of(streets: &[Street]) -> Vec<Arc> {
    let mut arcs = Vec::new();
    for street in streets {
        arcs.push(street.arc);
        if street.two_way {
            arcs.push(reversed(street.arc));
        }
    }
    arcs
}

/// How weights are drawn in one district.
#[derive(Clone, Copy)]
enum Weights {
    UpTo(u32),
    /// Nothing between 0 and the top.
    ZeroOrTop,
    NearTop,
    Only(u32),
}

impl Weights {
    fn any(random: &mut Random) -> Weights {
        match random.below(10) {
            0 => Weights::Only(0),
            1 => Weights::UpTo(1),
            2 | 3 => Weights::UpTo(3),
            4 => Weights::UpTo(9),
            5 => Weights::UpTo(100),
            6 => Weights::UpTo(TOP_WEIGHT),
            7 => Weights::ZeroOrTop,
            8 => Weights::NearTop,
            _ => Weights::Only(random.pick(&[1, 7, TOP_WEIGHT])),
        }
    }

    fn draw(self, random: &mut Random) -> u32 {
        match self {
            Weights::UpTo(most) => random.between(0, i64::from(most)) as u32,
            Weights::ZeroOrTop => random.pick(&[0, TOP_WEIGHT]),
            Weights::NearTop => TOP_WEIGHT - random.below(3) as u32,
            Weights::Only(weight) => weight,
        }
    }
}

/// Draws the streets of one district.
struct Drawing<'a> {
    random: &'a mut Random,
    weights: Weights,
    streets: Vec<Street>,
    /// The numbers the nodes get, so that position says nothing of number.
    numbers: Vec<u32>,
}

impl Drawing<'_> {
    fn new(random: &mut Random, nodes: usize) -> Drawing<'_> {
        let weights = Weights::any(random);
        let mut numbers: Vec<u32> = (0..nodes as u32).collect();
        if random.chance(50) {
            random.shuffle(&mut numbers);
        }
        Drawing { random, weights, streets: Vec::new(), numbers }
    }

    /// Keeps the numbers of the first `nodes` nodes, in whatever order they are.
    fn only(&mut self, nodes: usize) {
        self.numbers.retain(|&number| (number as usize) < nodes);
    }

    fn arc(&mut self, tail: usize, head: usize) {
        let weight = self.weights.draw(self.random);
        let arc = Arc { tail: self.numbers[tail], head: self.numbers[head], weight };
        self.streets.push(Street { arc, two_way: false });
    }

    fn link(&mut self, a: usize, b: usize) {
        self.arc(a, b);
        if let Some(street) = self.streets.last_mut() {
            street.two_way = true;
        }
    }

    /// Mostly both ways, sometimes one way, sometimes two arcs with their own weights.
    fn road(&mut self, a: usize, b: usize) {
        match self.random.below(10) {
            0 => self.arc(a, b),
            1 => self.arc(b, a),
            2 | 3 => {
                self.arc(a, b);
                self.arc(b, a);
            }
            _ => self.link(a, b),
        }
    }

    fn grid(&mut self, wide: usize, high: usize, kept: usize) {
        for y in 0..high {
            for x in 0..wide {
                let at = y * wide + x;
                if x + 1 < wide && self.random.chance(kept) {
                    self.road(at, at + 1);
                }
                if y + 1 < high && self.random.chance(kept) {
                    self.road(at, at + wide);
                }
            }
        }
    }

    fn tree(&mut self, nodes: usize) {
        for node in 1..nodes {
            let parent = self.random.below(node);
            self.road(parent, node);
        }
    }

    fn chain(&mut self, nodes: usize, two_way: bool) {
        for node in 1..nodes {
            if two_way {
                self.link(node - 1, node);
            } else {
                self.arc(node - 1, node);
            }
        }
    }

    fn clique(&mut self, nodes: usize) {
        for a in 0..nodes {
            for b in 0..nodes {
                if a != b {
                    self.arc(a, b);
                }
            }
        }
    }

    /// `count` arcs between any nodes; loops and parallel arcs come by themselves.
    fn scatter(&mut self, nodes: usize, count: usize) {
        for _ in 0..count {
            let (a, b) = (self.random.below(nodes), self.random.below(nodes));
            if self.random.chance(10) {
                self.link(a, b);
            } else {
                self.arc(a, b);
            }
        }
    }

    fn loops(&mut self, nodes: usize, count: usize) {
        for _ in 0..count {
            let node = self.random.below(nodes);
            self.arc(node, node);
        }
    }

    /// Takes the streets across one border away in one direction or in both.
    fn cut(&mut self, nodes: usize) {
        let border = self.random.below(nodes) as u32;
        let one_way = self.random.chance(50);
        self.streets.retain(|street| {
            let (from, to) = (street.arc.tail < border, street.arc.head < border);
            from == to || (one_way && from && !street.two_way)
        });
    }
}

/// Districts where the two sides get in each other's way: unquiet potentials, rows
/// of turns of one side, several queries. They show the finer points of floors.
fn unquiet(random: &mut Random) -> (String, District) {
    let nodes = 5 + random.below(36);
    let mut drawing = Drawing::new(random, nodes);
    let most = drawing.random.pick(&[9, 30, 100, 1_000]);
    drawing.weights = Weights::UpTo(most);
    let name = match drawing.random.below(3) {
        0 => {
            drawing.scatter(nodes, 3 * nodes);
            "scattered"
        }
        1 => {
            drawing.tree(nodes);
            drawing.scatter(nodes, nodes);
            "tree with more"
        }
        _ => {
            drawing.grid(5, nodes / 5, 100);
            "grid"
        }
    };
    let streets = std::mem::take(&mut drawing.streets);
    let arcs = arcs_of(&streets);
    let back: Vec<Arc> = arcs.iter().map(|&arc| reversed(arc)).collect();
    let spread = i64::from(most) * random.pick(&[1, 2, 4]);
    let mut unquiet = |arcs: &[Arc]| {
        let values = lowered((0..nodes).map(|_| random.between(0, spread)).collect(), arcs);
        shifted(random, values)
    };
    let (h, k) = (unquiet(&arcs), unquiet(&back));
    let values = h.into_iter().zip(k).map(|(h, k)| Node { h, k }).collect();
    let count = 4 + random.below(8);
    let queries = (0..count).map(|_| {
        let (start, end) = two_nodes(random, nodes);
        Query::new(start as u32, end as u32, rows(random))
    });
    let queries = queries.collect();
    (format!("unquiet {name} of {nodes}"), District { nodes: values, streets, queries })
}

/// A pattern of rows of the same side.
fn rows(random: &mut Random) -> Vec<u8> {
    let mut pattern = Vec::new();
    let mut side = random.below(2) as u8;
    for _ in 0..2 + random.below(5) {
        pattern.extend(vec![side; 1 + random.below(9)]);
        side = 1 - side;
    }
    pattern
}

fn small(random: &mut Random) -> (String, District) {
    let nodes = match random.below(20) {
        0 => 1 + random.below(2),
        1..=9 => 3 + random.below(6),
        10..=16 => 9 + random.below(16),
        17 | 18 => 25 + random.below(40),
        _ => 65 + random.below(200),
    };
    let mut drawing = Drawing::new(random, nodes);
    let mut nodes = nodes;
    let name = match drawing.random.below(12) {
        0..=2 => {
            let count = drawing.random.below(3 * nodes + 3);
            drawing.scatter(nodes, count);
            "scattered"
        }
        3..=5 => {
            let wide = 1 + drawing.random.below(1 + (nodes as f64).sqrt() as usize * 2);
            let high = (nodes / wide).max(1);
            let kept = drawing.random.pick(&[100, 90, 75]);
            drawing.grid(wide.min(nodes), high, kept);
            "grid"
        }
        6 => {
            drawing.tree(nodes);
            "tree"
        }
        7 => {
            nodes = nodes.min(14);
            drawing.only(nodes);
            drawing.clique(nodes);
            "clique"
        }
        8 => {
            let two_way = drawing.random.chance(50);
            drawing.chain(nodes, two_way);
            "chain"
        }
        9 => {
            let count = drawing.random.below(40);
            nodes = nodes.min(4);
            drawing.only(nodes);
            drawing.scatter(nodes, count);
            "parallel"
        }
        10 => {
            let count = 2 * nodes + drawing.random.below(nodes + 1);
            drawing.scatter(nodes, count);
            drawing.cut(nodes);
            "cut in two"
        }
        _ => {
            drawing.tree(nodes);
            let more = drawing.random.below(nodes + 1);
            drawing.scatter(nodes, more);
            drawing.loops(nodes, 3);
            "tree with more"
        }
    };
    if drawing.random.chance(30) {
        drawing.random.shuffle(&mut drawing.streets);
    }
    let mut streets = std::mem::take(&mut drawing.streets);
    trim(&mut streets, MOST_ARCS);
    let queries = if random.chance(45) { 1 } else { 2 + random.below(5) };
    (format!("{name} of {nodes}"), furnish(random, nodes, streets, queries))
}

/// Drops streets from the end until at most `most` arcs are left.
fn trim(streets: &mut Vec<Street>, most: usize) {
    while arcs_of(streets).len() > most {
        streets.pop();
    }
}

/// Adds arcs between any nodes until there are exactly `count`.
fn fill(random: &mut Random, nodes: usize, streets: &mut Vec<Street>, count: usize, weights: Weights) {
    trim(streets, count);
    for _ in arcs_of(streets).len()..count {
        let (tail, head) = (random.below(nodes) as u32, random.below(nodes) as u32);
        let arc = Arc { tail, head, weight: weights.draw(random) };
        streets.push(Street { arc, two_way: false });
    }
}

fn large(random: &mut Random, turn: u64) -> (String, District) {
    let most = MOST_NODES;
    let mut nodes = most;
    let kind = turn % 11;
    let mut drawing = Drawing::new(random, most + 1);
    let name = match kind {
        0 => {
            // The largest shortest length: every node on one chain, every weight the top.
            drawing.weights = Weights::Only(TOP_WEIGHT);
            drawing.numbers = (0..=most as u32).collect();
            drawing.chain(most, false);
            "chain at the top"
        }
        1 => {
            drawing.only(most);
            drawing.grid(64, 32, 100);
            "grid at both bounds"
        }
        2 => {
            nodes += 1;
            drawing.chain(nodes, true);
            "one node too many"
        }
        3 => {
            drawing.only(most);
            drawing.scatter(most, 7_000);
            "one arc too many"
        }
        4 => {
            nodes = 91;
            drawing.only(nodes);
            drawing.clique(91);
            "clique of 91"
        }
        5 => {
            drawing.only(most);
            drawing.tree(most);
            "tree at the bound"
        }
        6 => {
            nodes = 100 + drawing.random.below(400);
            drawing.only(nodes);
            drawing.scatter(nodes, 4 * nodes);
            "scattered, middling"
        }
        7 => {
            nodes = 900;
            drawing.only(nodes);
            drawing.grid(30, 30, 90);
            "grid of 900"
        }
        8 => {
            nodes = 3;
            drawing.only(nodes);
            "all arcs parallel"
        }
        9 => {
            nodes = 12;
            drawing.only(nodes);
            drawing.scatter(12, 40);
            "many queries"
        }
        _ => {
            drawing.only(most);
            let count = drawing.random.below(2_000);
            drawing.scatter(most, count);
            "thin at the bound"
        }
    };
    let weights = drawing.weights;
    let mut streets = std::mem::take(&mut drawing.streets);
    match kind {
        1 | 8 => fill(random, nodes, &mut streets, MOST_ARCS, weights),
        3 => fill(random, nodes, &mut streets, MOST_ARCS + 1, weights),
        _ => {}
    }
    if kind == 0 {
        // Exactly from one end of the chain to the other, once each way, and nothing to refuse.
        let arcs = arcs_of(&streets);
        let nodes = potentials(random, most, &arcs, 0, most - 1);
        let last = most as u32 - 1;
        let queries = vec![Query::new(0, last, pattern(random)), Query::new(last, 0, pattern(random))];
        return (name.into(), District { nodes, streets, queries });
    }
    let queries = if kind == 9 { 1_500 } else { 1 + random.below(5) };
    (format!("{name}, {nodes} nodes"), furnish(random, nodes, streets, queries))
}

/// Adds potentials, queries and now and then something that is to be refused.
fn furnish(random: &mut Random, nodes: usize, mut streets: Vec<Street>, queries: usize) -> District {
    let (start, end) = two_nodes(random, nodes);
    let arcs = arcs_of(&streets);
    let mut values = potentials(random, nodes, &arcs, start, end);
    if random.chance(8) {
        upset_consistency(random, &arcs, &mut values);
    }
    if random.chance(4) {
        upset_range(random, &mut values);
    }
    if random.chance(7) && !streets.is_empty() {
        upset_arcs(random, nodes, &mut streets);
    }
    let queries = queries_for(random, nodes, start, end, queries);
    District { nodes: values, streets, queries }
}

fn upset_arcs(random: &mut Random, nodes: usize, streets: &mut [Street]) {
    for _ in 0..1 + random.below(3) {
        let at = random.below(streets.len());
        let arc = &mut streets[at].arc;
        match random.below(4) {
            0 => arc.tail = random.pick(&[nodes as u32, 65_535, 32_768]),
            1 => arc.head = random.pick(&[nodes as u32, 65_535, 32_768]),
            _ => arc.weight = random.pick(&[TOP_WEIGHT + 1, u32::MAX, 1 << 31, i32::MAX as u32]),
        }
    }
}

// ---------------------------------------------------------------- queries

fn pattern(random: &mut Random) -> Vec<u8> {
    match random.below(10) {
        0 => vec![0],
        1 => vec![1],
        2 | 3 => vec![0, 1],
        4 => vec![1, 0],
        5 => (0..64).map(|_| random.below(2) as u8).collect(),
        6 => {
            // One turn of the other side after a long row.
            let row = random.below(2) as u8;
            let mut pattern = vec![row; 1 + random.below(63)];
            pattern.push(1 - row);
            pattern
        }
        _ => (0..1 + random.below(8)).map(|_| random.below(2) as u8).collect(),
    }
}

fn bad_pattern(random: &mut Random) -> Vec<u8> {
    match random.below(5) {
        0 => vec![],
        1 => vec![0; 65],
        2 => vec![1; 255],
        3 => vec![2 + random.below(14) as u8],
        _ => {
            let mut pattern = pattern(random);
            let at = random.below(pattern.len());
            pattern[at] = 2 + random.below(14) as u8;
            pattern
        }
    }
}

/// Other patterns to try the same pair of nodes with.
pub fn other_patterns(seed: u64, count: usize) -> Vec<Vec<u8>> {
    let mut random = Random::new(seed ^ 0x5EED);
    (0..count).map(|_| pattern(&mut random)).collect()
}

/// Two nodes, different ones if there are any.
fn two_nodes(random: &mut Random, nodes: usize) -> (usize, usize) {
    let start = random.below(nodes);
    let step = if nodes > 1 { 1 + random.below(nodes - 1) } else { 0 };
    (start, (start + step) % nodes)
}

fn queries_for(random: &mut Random, nodes: usize, start: usize, end: usize, count: usize) -> Vec<Query> {
    let mut queries = Vec::new();
    for at in 0..count {
        let mut query = Query::new(start as u32, end as u32, pattern(random));
        if at > 0 && random.chance(60) {
            let (start, end) = two_nodes(random, nodes);
            query.start = start as u32;
            query.end = end as u32;
        }
        if random.chance(4) {
            query.end = query.start;
        }
        if random.chance(4) {
            query.start = random.pick(&[nodes as u32, 65_535, nodes as u32 + 1]);
        }
        if random.chance(4) {
            query.end = random.pick(&[nodes as u32, 65_535, nodes as u32 + 1]);
        }
        if random.chance(6) {
            query.pattern = bad_pattern(random);
        }
        queries.push(query);
    }
    queries
}

/// Gives some of the queries a cap, none and few turns, those just before and just at the end of the search, more than
/// it needs, or any. Where that is quick, the same trip is asked at several caps and perhaps without one, in any order;
/// in a large district one trip is asked at no turn, at one, just before and just at its end.
fn cap_some(random: &mut Random, district: &mut District) {
    let network = Network { nodes: district.nodes.clone(), arcs: arcs_of(&district.streets) };
    let quick = network.nodes.len() <= 300 && district.queries.len() <= 100;
    let mut asked_through = quick;
    let mut queries = Vec::new();
    for query in std::mem::take(&mut district.queries) {
        if random.chance(40) {
            queries.push(query);
            continue;
        }
        let turns = model::answer(&network, &query, None).turns_taken as u16;
        let mut caps = vec![Some(cap(random, turns))];
        if quick {
            caps.extend((0..1 + random.below(4)).map(|_| Some(cap(random, turns))));
            caps.extend(random.chance(50).then_some(None));
            random.shuffle(&mut caps);
        } else if !asked_through && turns > 2 {
            asked_through = true;
            caps = [0, 1, turns - 1, turns].map(Some).to_vec();
            random.shuffle(&mut caps);
        }
        queries.extend(caps.into_iter().map(|cap| query.at(cap)));
    }
    district.queries = queries;
}

/// A cap for a search that takes so many turns.
fn cap(random: &mut Random, turns: u16) -> u16 {
    match random.below(10) {
        0 => 0,
        1 => 1,
        2 | 3 => turns.saturating_sub(1),
        4 => turns,
        5 => random.pick(&[turns + 1, turns + 2, 2_048, 65_535]),
        6 => random.below(65_536) as u16,
        _ => random.below(usize::from(turns) + 1) as u16,
    }
}
