//! Road-like districts for the benchmark: streets on a grid, some of them fast,
//! with short cuts, and potentials that are zero or landmark-like.

use independent::frames::{frame_line, Frame};
use independent::laws::true_lengths;
use independent::model::{Arc, Network, Node, Query, Side};
use independent::random::Random;

pub struct Road {
    wide: usize,
    high: usize,
    /// The number of the node at each place of the grid.
    numbers: Vec<u32>,
    pub network: Network,
    random: Random,
}

#[derive(Clone, Copy, PartialEq, Eq)]
pub enum Trips {
    /// Any two different nodes.
    Any,
    /// From one side of the district to the other.
    Across,
}

impl Trips {
    pub fn name(self) -> &'static str {
        match self {
            Trips::Any => "any",
            Trips::Across => "across",
        }
    }
}

impl Road {
    /// A district with exactly `per_node` arcs for each node: 2, 4 or 8, or none for a single node.
    pub fn new(nodes: usize, per_node: usize, seed: u64) -> Road {
        let mut random = Random::new(seed);
        let mut high = (nodes as f64).sqrt() as usize;
        while !nodes.is_multiple_of(high) {
            high -= 1;
        }
        let mut numbers: Vec<u32> = (0..nodes as u32).collect();
        random.shuffle(&mut numbers);
        let network = Network { nodes: vec![Node { h: 0, k: 0 }; nodes], arcs: Vec::new() };
        let mut road = Road { wide: nodes / high, high, numbers, network, random };
        road.streets(per_node);
        road.short_cuts(nodes * per_node);
        road
    }

    fn at(&self, x: usize, y: usize) -> u32 {
        self.numbers[y * self.wide + x]
    }

    /// Every eighth street is a fast one; lengths vary by half.
    fn weight(&mut self, (x, y): (usize, usize), (a, b): (usize, usize)) -> u32 {
        let steps = ((x.abs_diff(a).pow(2) + y.abs_diff(b).pow(2)) as f64).sqrt();
        let fast = (y == b && y % 8 == 4) || (x == a && x % 8 == 4);
        let pace = if fast { 60 } else { 150 };
        (steps * (pace + self.random.below(pace)) as f64) as u32
    }

    fn street(&mut self, from: (usize, usize), to: (usize, usize), ways: usize) {
        let weight = self.weight(from, to);
        let (tail, head) = (self.at(from.0, from.1), self.at(to.0, to.1));
        self.network.arcs.push(Arc { tail, head, weight });
        if ways == 2 {
            let weight = if self.random.chance(70) { weight } else { self.weight(from, to) };
            self.network.arcs.push(Arc { tail: head, head: tail, weight });
        }
    }

    /// Two arcs a node: one-way streets, turn about. Four: both ways. Eight: the
    /// diagonals as well.
    fn streets(&mut self, per_node: usize) {
        let ways = if per_node == 2 { 1 } else { 2 };
        for y in 0..self.high {
            for x in 0..self.wide {
                let east = (x + 1 < self.wide).then_some((x + 1, y));
                let south = (y + 1 < self.high).then_some((x, y + 1));
                for (next, turned) in [(east, y % 2 == 1), (south, x % 2 == 0)] {
                    let Some(next) = next else { continue };
                    let (from, to) = if turned { (next, (x, y)) } else { ((x, y), next) };
                    self.street(from, to, ways);
                }
                if per_node == 8 && x + 1 < self.wide && y + 1 < self.high {
                    self.street((x, y), (x + 1, y + 1), 2);
                    self.street((x + 1, y), (x, y + 1), 2);
                }
            }
        }
    }

    /// Fills up with arcs between nodes at most three steps apart.
    fn short_cuts(&mut self, arcs: usize) {
        while self.network.arcs.len() < arcs {
            let (x, y) = (self.random.below(self.wide), self.random.below(self.high));
            let a = (x + self.random.below(4)).min(self.wide - 1);
            let b = (y + self.random.below(4)).min(self.high - 1);
            if (x, y) == (a, b) {
                continue;
            }
            let (from, to) = if self.random.chance(50) { ((x, y), (a, b)) } else { ((a, b), (x, y)) };
            self.street(from, to, 1);
        }
    }

    /// Landmarks in the corners; the forward potential aims at the middle of the
    /// far side, the backward one at the middle of the near side:
    /// h(v) = max (d(v, L) - d(E, L)), k(v) = max (d(S, L) - d(v, L)).
    pub fn aim_potentials(&mut self) {
        let corners = [(0, 0), (self.wide - 1, 0), (0, self.high - 1), (self.wide - 1, self.high - 1)];
        let middle = self.high / 2;
        let (near, far) = (self.at(self.wide / 10, middle), self.at(self.wide - 1 - self.wide / 10, middle));
        let mut values: Vec<Option<Node>> = vec![None; self.network.nodes.len()];
        for (x, y) in corners {
            let landmark = self.at(x, y) as usize;
            let to: Option<Vec<i64>> = true_lengths(&self.network, landmark, Side::End).into_iter().collect();
            // A landmark that some node cannot reach is left out.
            let Some(to) = to else { continue };
            for (node, value) in values.iter_mut().enumerate() {
                let h = (to[node] - to[far as usize]) as i32;
                let k = (to[near as usize] - to[node]) as i32;
                *value = Some(value.map_or(Node { h, k }, |old| Node { h: old.h.max(h), k: old.k.max(k) }));
            }
        }
        for (node, value) in self.network.nodes.iter_mut().zip(values) {
            *node = value.unwrap_or(*node);
        }
    }

    /// Turns alternate, as a unit would have them.
    pub fn trips(&self, kind: Trips, count: usize, seed: u64) -> Vec<Query> {
        let mut random = Random::new(seed);
        let strip = (self.wide / 5).max(1);
        let mut queries = Vec::new();
        while queries.len() < count {
            let (start, end) = match kind {
                Trips::Any => (random.pick(&self.numbers), random.pick(&self.numbers)),
                Trips::Across => {
                    let start = self.at(random.below(strip), random.below(self.high));
                    let end = self.at(self.wide - 1 - random.below(strip), random.below(self.high));
                    (start, end)
                }
            };
            if start != end {
                queries.push(Query::new(start, end, vec![0, 1]));
            }
        }
        queries
    }

    /// The district's frames; two arcs that are each other's reverse become a 05.
    pub fn file(&self, queries: &[Query]) -> Vec<u8> {
        let network = &self.network;
        let mut text = frame_line(&Frame::Size { nodes: network.nodes.len(), arcs: network.arcs.len() });
        let mut rest = &network.arcs[..];
        while let Some((&arc, after)) = rest.split_first() {
            let back = Arc { tail: arc.head, head: arc.tail, weight: arc.weight };
            if after.first() == Some(&back) {
                text += &frame_line(&Frame::TwoWay(arc));
                rest = &after[1..];
            } else {
                text += &frame_line(&Frame::OneWay(arc));
                rest = after;
            }
        }
        for (node, &values) in network.nodes.iter().enumerate() {
            text += &frame_line(&Frame::Potentials { node, values });
        }
        for query in queries {
            text += &frame_line(&Frame::Query(query.clone()));
        }
        text.into_bytes()
    }

    /// The network alone: one query with start equal to end.
    pub fn reading_alone(&self) -> Vec<u8> {
        self.file(&[Query::new(0, 0, vec![0])])
    }
}
