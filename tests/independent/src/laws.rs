//! Demands 2 and 3, and what is promised of capped queries (docs/RULES.md, "Capped queries"), as tests of
//! one accepted query's answer and tables, against a plain Bellman-Ford that knows nothing of potentials, turns or
//! sides' floors; of the answers to the same query at two caps; and of all that a file is answered, that no index is
//! refused in it.

use crate::model::{self, Answer, Fault, Network, Outcome, Query, Search, Side, State};

type Broken = Result<(), String>;

fn demand(holds: bool, what: impl Fn() -> String) -> Broken {
    if holds {
        Ok(())
    } else {
        Err(what())
    }
}

/// The least length of a walk between `origin` and each node: from it for the
/// start side, to it for the end side. `None` where no walk exists.
pub fn true_lengths(network: &Network, origin: usize, side: Side) -> Vec<Option<i64>> {
    let mut lengths = vec![None; network.nodes.len()];
    lengths[origin] = Some(0);
    loop {
        let mut changed = false;
        for arc in &network.arcs {
            let (near, far) = side.near_and_far(arc);
            let Some(length) = lengths[near] else { continue };
            let through = length + i64::from(arc.weight);
            if lengths[far].is_none_or(|old: i64| through < old) {
                lengths[far] = Some(through);
                changed = true;
            }
        }
        if !changed {
            return lengths;
        }
    }
}

/// Everything the demands say of one query that was not refused. The fault is for
/// the test of these tests.
pub fn test_query(network: &Network, query: &Query, others: &[Vec<u8>], fault: Option<Fault>) -> Broken {
    let outcome = model::answer(network, query, fault);
    let tables = outcome.tables.as_ref().ok_or("an accepted query has no tables")?;
    let (start, end) = (query.start as usize, query.end as usize);
    let from_start = true_lengths(network, start, Side::Start);
    let to_end = true_lengths(network, end, Side::End);
    demand(from_start[end] == to_end[start], || "the two Bellman-Fords differ".into())?;
    test_verdict(network, query, &outcome.answer, from_start[end])?;
    test_figures(&outcome, tables, network.nodes.len())?;
    if start == end {
        test_beginning(tables, start)?;
    } else {
        test_opened(network, tables, Side::Start, &from_start, from_start[end])?;
        test_opened(network, tables, Side::End, &to_end, from_start[end])?;
    }
    if let Some(cap) = query.cap {
        return test_cap(network, query, cap, &outcome, fault);
    }
    for pattern in others {
        let other = Query::new(query.start, query.end, pattern.clone());
        let answer = model::answer(network, &other, fault).answer;
        demand(verdict(&answer) == from_start[end], || format!("another verdict with pattern {pattern:?}"))?;
    }
    Ok(())
}

/// A search that ends within its cap is answered as without one; another is stopped there and says so. One turn
/// more, and all of them, take nothing back.
fn test_cap(network: &Network, query: &Query, cap: u16, outcome: &Outcome, fault: Option<Fault>) -> Broken {
    let whole = model::answer(network, &query.at(None), fault);
    if whole.turns_taken <= usize::from(cap) {
        demand(outcome.answer == whole.answer, || {
            format!("cap {cap}: the search ends within it, and the answer differs")
        })?;
    } else {
        let stopped = matches!(outcome.answer, Answer::Provisional { .. } | Answer::Undecided { .. });
        demand(stopped, || format!("cap {cap}: the search does not end within it, and the answer does not say so"))?;
        demand(outcome.turns_taken == usize::from(cap), || format!("cap {cap}: {} turns", outcome.turns_taken))?;
    }
    let further = model::answer(network, &query.at(Some(cap.saturating_add(1))), fault);
    takes_nothing_back(&outcome.answer, &further.answer)?;
    takes_nothing_back(&outcome.answer, &whole.answer)
}

/// Of two answers to the same query, the second at the larger cap or at none: a route or a no route stays, a length shown
/// does not grow and its excess neither, and what was decided is not undecided again.
pub fn takes_nothing_back(smaller: &Answer, larger: &Answer) -> Broken {
    let stays = match (smaller, larger) {
        (Answer::Route { .. } | Answer::NoRoute { .. } | Answer::Refused(_), _) => smaller == larger,
        (Answer::Provisional { length, excess, .. }, Answer::Provisional { length: later, excess: left, .. }) => {
            later <= length && left <= excess && length - excess <= *later
        }
        (Answer::Provisional { length, excess, .. }, Answer::Route { length: later, .. }) => {
            later <= length && length - excess <= *later
        }
        (Answer::Provisional { .. }, _) => false,
        (Answer::Undecided { turns }, Answer::Undecided { turns: later }) => turns <= later,
        (Answer::Undecided { .. }, _) => !matches!(larger, Answer::Refused(_)),
    };
    demand(stays, || format!("a larger cap takes back {smaller:?} for {larger:?}"))
}

fn verdict(answer: &Answer) -> Option<i64> {
    match answer {
        Answer::Route { length, .. } => Some(*length),
        _ => None,
    }
}

/// The route is real, has no node twice and no walk undercuts it; "no route"
/// stands only where there is no walk. A provisional route is real too, and no walk undercuts it by more than the excess.
fn test_verdict(network: &Network, query: &Query, answer: &Answer, truth: Option<i64>) -> Broken {
    match answer {
        Answer::Refused(refusal) => Err(format!("an accepted query is refused with {}", refusal.number)),
        Answer::NoRoute { .. } => demand(truth.is_none(), || format!("no route, but a walk of {truth:?}")),
        Answer::Route { length, path, .. } => {
            demand(truth == Some(*length), || format!("length {length}, Bellman-Ford {truth:?}"))?;
            test_path(network, query, path, *length)
        }
        Answer::Provisional { length, excess, path } => {
            let honest = truth.is_some_and(|truth| truth <= *length && *length <= truth + excess);
            demand(honest, || format!("length {length} with excess {excess}, Bellman-Ford {truth:?}"))?;
            demand((0..=*length).contains(excess), || format!("excess {excess} of length {length}"))?;
            test_path(network, query, path, *length)
        }
        Answer::Undecided { .. } => Ok(()),
    }
}

fn test_path(network: &Network, query: &Query, path: &[usize], length: i64) -> Broken {
    let ends = (path.first().copied(), path.last().copied());
    demand(ends == (Some(query.start as usize), Some(query.end as usize)), || {
        "the path does not lead from start to end".into()
    })?;
    let mut met = vec![false; network.nodes.len()];
    for &node in path {
        demand(!met[node], || format!("node {node} stands twice in the path"))?;
        met[node] = true;
    }
    let mut sum = 0;
    for step in path.windows(2) {
        let weight =
            cheapest(network, step[0], step[1]).ok_or_else(|| format!("no arc from {} to {}", step[0], step[1]))?;
        sum += i64::from(weight);
    }
    demand(sum == length, || format!("the path's arcs sum to {sum}, the length is {length}"))
}

/// The least weight among the parallel arcs from one node to another.
fn cheapest(network: &Network, tail: usize, head: usize) -> Option<u32> {
    let parallel = network.arcs.iter().filter(|arc| (arc.tail as usize, arc.head as usize) == (tail, head));
    parallel.map(|arc| arc.weight).min()
}

fn test_figures(outcome: &Outcome, tables: &Search, nodes: usize) -> Broken {
    let figures = tables.figures();
    let told = match &outcome.answer {
        Answer::Route { figures: told, .. } | Answer::NoRoute { figures: told } => *told == figures,
        Answer::Undecided { turns } => *turns == figures.turns,
        Answer::Provisional { .. } => true,
        Answer::Refused(_) => false,
    };
    demand(told, || "the figures are not the counts of the states".into())?;
    let left = figures.opened_by_start + figures.opened_by_end + figures.rejected;
    demand(left == figures.turns, || "opened and rejected are not the turns".into())?;
    demand(outcome.turns_taken == figures.turns, || "a turn was taken in which no node left".into())?;
    demand(figures.turns <= nodes, || "more turns than nodes".into())
}

/// Demand 3, before the end of a search too: an opened node's label is its exact distance, and that distance plus
/// its potential less the target's is at most the true shortest length, if there is one.
fn test_opened(network: &Network, tables: &Search, side: Side, exact: &[Option<i64>], truth: Option<i64>) -> Broken {
    let half = tables.half(side);
    let target = tables.half(side.other()).origin;
    for (node, &exact) in exact.iter().enumerate() {
        if tables.states[node] != State::Opened(side) {
            continue;
        }
        let label = half.labels[node].ok_or_else(|| format!("opened node {node} has no label"))?;
        demand(exact == Some(label), || format!("node {node} opened by {side:?} at {label}, exact {exact:?}"))?;
        if let Some(length) = truth {
            let bound = label + side.potential(network.nodes[node]) - side.potential(network.nodes[target]);
            demand(bound <= length, || format!("node {node} opened by {side:?} beyond the length"))?;
        }
    }
    Ok(())
}

/// Start equal to end: the tables are those at the beginning of a search.
fn test_beginning(tables: &Search, node: usize) -> Broken {
    for side in [Side::Start, Side::End] {
        let half = tables.half(side);
        let alone = half.labels.iter().enumerate().all(|(at, label)| *label == (at == node).then_some(0));
        demand(alone, || "labels beside the start's".into())?;
        demand(half.neighbours.iter().all(Option::is_none), || "a neighbour at the beginning".into())?;
    }
    demand(tables.states.iter().all(|state| *state == State::Undecided), || "a node left".into())
}

/// 19 and 20, in hexadecimal 13 and 14, never come from a file.
pub fn no_index_refused(output: &[u8]) -> Broken {
    let refused = |line: &&[u8]| line.starts_with(b"FF13") || line.starts_with(b"FF14");
    match output.split(|&byte| byte == b'\n').find(refused) {
        Some(line) => Err(format!("{} comes from a file", String::from_utf8_lossy(line))),
        None => Ok(()),
    }
}
