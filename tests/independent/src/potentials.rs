//! Potentials for made districts: consistent ones of many kinds, up to the bounds,
//! and ones that are to be refused.

use crate::model::{Arc, Node, TOP_POTENTIAL};
use crate::random::Random;

pub fn reversed(arc: Arc) -> Arc {
    Arc { tail: arc.head, head: arc.tail, weight: arc.weight }
}

/// Lowers forward values until h(u) - h(v) is at most w on every arc.
pub fn lowered(mut values: Vec<i64>, arcs: &[Arc]) -> Vec<i64> {
    loop {
        let mut changed = false;
        for arc in arcs {
            let most = values[arc.head as usize] + i64::from(arc.weight);
            if values[arc.tail as usize] > most {
                values[arc.tail as usize] = most;
                changed = true;
            }
        }
        if !changed {
            return values;
        }
    }
}

/// A forward potential that is consistent. Backward ones are forward ones of the
/// reversed arcs.
fn consistent(random: &mut Random, nodes: usize, arcs: &[Arc], aim: usize, depth: usize) -> Vec<i64> {
    let top = i64::from(TOP_POTENTIAL);
    match random.below(if depth > 0 { 8 } else { 11 }) {
        0 => vec![0; nodes],
        1 | 2 => towards(nodes, arcs, aim),
        3 => {
            // Away from a landmark: the backward distance, with its sign changed.
            let landmark = random.below(nodes);
            let back: Vec<Arc> = arcs.iter().map(|&arc| reversed(arc)).collect();
            towards(nodes, &back, landmark).into_iter().map(|value| -value).collect()
        }
        4 => {
            let landmark = random.below(nodes);
            towards(nodes, arcs, landmark)
        }
        5 => {
            let most = random.pick(&[3, 50, 3_000_000, 1_000_000_000]);
            lowered((0..nodes).map(|_| random.between(0, most)).collect(), arcs)
        }
        6 => {
            // From one end of the range to the other: differences beyond 32 bits.
            lowered((0..nodes).map(|_| random.pick(&[-top, top])).collect(), arcs)
        }
        7 => {
            let all = towards(nodes, arcs, aim);
            all.into_iter().map(|value| value.div_euclid(2)).collect()
        }
        8 | 9 => {
            let a = consistent(random, nodes, arcs, aim, depth + 1);
            let b = consistent(random, nodes, arcs, aim, depth + 1);
            a.into_iter().zip(b).map(|(a, b)| a.max(b)).collect()
        }
        _ => {
            let a = consistent(random, nodes, arcs, aim, depth + 1);
            let b = consistent(random, nodes, arcs, aim, depth + 1);
            a.into_iter().zip(b).map(|(a, b)| a.min(b)).collect()
        }
    }
}

/// The exact distance to one node; nodes that do not reach it get the largest
/// distance there is, which keeps it consistent.
fn towards(nodes: usize, arcs: &[Arc], aim: usize) -> Vec<i64> {
    let missing = i64::MAX / 4;
    let mut values = vec![missing; nodes];
    values[aim] = 0;
    let values = lowered(values, arcs);
    let far = i64::MAX / 8;
    let most = values.iter().copied().filter(|&value| value < far).max().unwrap_or(0);
    values.into_iter().map(|value| value.min(most)).collect()
}

/// Adds one constant, often the one that brings the list to a bound.
pub fn shifted(random: &mut Random, values: Vec<i64>) -> Vec<i32> {
    let top = i64::from(TOP_POTENTIAL);
    let least = values.iter().copied().min().unwrap_or(0);
    let most = values.iter().copied().max().unwrap_or(0);
    let (down, up) = (-top - least, top - most);
    let shift = match random.below(10) {
        0 => down,
        1 => up,
        2 => random.between(down, up),
        3 => random.between(-5, 5),
        _ => 0,
    };
    let shift = shift.clamp(down, up);
    values.into_iter().map(|value| (value + shift) as i32).collect()
}

pub fn potentials(random: &mut Random, nodes: usize, arcs: &[Arc], start: usize, end: usize) -> Vec<Node> {
    let back: Vec<Arc> = arcs.iter().map(|&arc| reversed(arc)).collect();
    let (h, k) = match random.below(8) {
        0 | 1 => (vec![0; nodes], vec![0; nodes]),
        2 => {
            // A balanced pair: h = (a - b)/2 rounded down, k = -h.
            let a = consistent(random, nodes, arcs, end, 0);
            let b = consistent(random, nodes, &back, start, 0);
            let h: Vec<i64> = a.into_iter().zip(b).map(|(a, b)| (a - b).div_euclid(2)).collect();
            let k = h.iter().map(|value| -value).collect();
            (h, k)
        }
        _ => (consistent(random, nodes, arcs, end, 0), consistent(random, nodes, &back, start, 0)),
    };
    let (h, k) = (shifted(random, h), shifted(random, k));
    h.into_iter().zip(k).map(|(h, k)| Node { h, k }).collect()
}

/// Makes one arc (and perhaps more with it) inconsistent, often by exactly one.
pub fn upset_consistency(random: &mut Random, arcs: &[Arc], values: &mut [Node]) {
    if arcs.is_empty() {
        return;
    }
    for _ in 0..1 + random.below(3) {
        let arc = random.pick(arcs);
        let (u, v) = (arc.tail as usize, arc.head as usize);
        let more = i64::from(arc.weight) + if random.chance(70) { 1 } else { random.between(0, 1_000) };
        let top = i64::from(TOP_POTENTIAL);
        if u == v {
            continue;
        }
        match random.below(4) {
            0 => values[u].h = (i64::from(values[v].h) + more).clamp(-top, top) as i32,
            1 => values[v].h = (i64::from(values[u].h) - more).clamp(-top, top) as i32,
            2 => values[v].k = (i64::from(values[u].k) + more).clamp(-top, top) as i32,
            _ => values[u].k = (i64::from(values[v].k) - more).clamp(-top, top) as i32,
        }
    }
}

pub fn upset_range(random: &mut Random, values: &mut [Node]) {
    for _ in 0..1 + random.below(2) {
        let node = random.below(values.len());
        let value = random.pick(&[TOP_POTENTIAL + 1, -TOP_POTENTIAL - 1, i32::MAX, i32::MIN]);
        if random.chance(50) {
            values[node].h = value;
        } else {
            values[node].k = value;
        }
    }
}
