//! `routeline` beside an earlier version of it, run alternately on the same bytes: a query, a turn, and reading. The two programs
//! are made alike, so that the one can be held against the other.

use crate::road::{Road, Trips};
use crate::{
    over_arcs, over_sizes, smallest_and_largest, table, thousands, time_programs, Flags, Timed, BESIDE, TURN_GROWTH,
};
use std::path::Path;

/// What two versions take on one file, before and now, in seconds.
struct Beside {
    nodes: usize,
    arcs: usize,
    potentials: &'static str,
    trips: &'static str,
    /// A query's turns, as a mean.
    turns: f64,
    /// The start of the process.
    start: [f64; 2],
    /// Reading the network alone.
    reading: [f64; 2],
    /// A query, reading taken off.
    query: [f64; 2],
}

impl Beside {
    fn turn(&self, which: usize) -> f64 {
        self.query[which] / self.turns
    }
}

pub fn run(Flags { routeline, before, queries, out }: Flags) -> Result<(), String> {
    let before = before.ok_or("give the program of an earlier version: --before PATH")?;
    let row = |road: &Road, potentials, trips| measure([&before, &routeline], road, potentials, trips, queries);
    let by_nodes = over_sizes("measuring", row)?;
    let by_arcs = over_arcs("measuring", row)?;
    crate::tell(report(&by_nodes, &by_arcs, queries), out, BESIDE)
}

fn measure(
    [before, now]: [&Path; 2],
    road: &Road,
    potentials: &'static str,
    trips: Trips,
    queries: usize,
) -> Result<Beside, String> {
    let timed = Timed::new(road, trips, queries);
    let Timed { start, alone, all, .. } = &timed;
    let [start_before, start_now, alone_before, alone_now] =
        time_programs([(before, start), (now, start), (before, alone), (now, alone)])?;
    let [all_before, all_now] = time_programs([(before, all), (now, all)])?;
    Ok(Beside {
        nodes: road.network.nodes.len(),
        arcs: road.network.arcs.len(),
        potentials,
        trips: trips.name(),
        turns: timed.turns(),
        start: [start_before, start_now],
        reading: [alone_before, alone_now],
        query: [timed.a_query(all_before, alone_before), timed.a_query(all_now, alone_now)],
    })
}

fn report(by_nodes: &[Beside], by_arcs: &[Beside], queries: usize) -> String {
    let mut text = format!(
        "## Before and now\n\nThe districts and trips of the tables of times below, {queries} trips a row or more, pattern 01; \
         processor time. Both programs read the same bytes, run alternately, and every answer line of both was compared \
         with the fast engine's: no difference.\n\nBy number of nodes, four arcs a node:\n\n"
    );
    text += &times(by_nodes);
    text += TURN_GROWTH;
    let head = ["potentials", "trips", "before", "now"];
    let growth = smallest_and_largest(by_nodes).map(|(old, new)| {
        vec![
            new.potentials.to_string(),
            new.trips.to_string(),
            format!("{:.2}", new.turn(0) / old.turn(0)),
            format!("{:.2}", new.turn(1) / old.turn(1)),
        ]
    });
    text += &table(&head, growth.collect());
    text += "By number of arcs, nodes fixed:\n\n";
    text += &times(by_arcs);
    text += "Reading the network alone, four arcs a node, in milliseconds; the start of the process, which is among it; and \
             reading less that:\n\n";
    text += &reading(by_nodes);
    text.trim_end().to_string() + "\n"
}

fn times(rows: &[Beside]) -> String {
    let head = [
        "nodes",
        "arcs",
        "potentials",
        "trips",
        "turns a query",
        "before us/query",
        "now us/query",
        "before ns/turn",
        "now ns/turn",
        "now to before",
    ];
    let row = |m: &Beside| {
        let [before, now] = m.query;
        vec![
            thousands(m.nodes),
            thousands(m.arcs),
            m.potentials.to_string(),
            m.trips.to_string(),
            format!("{:.1}", m.turns),
            format!("{:.1}", before * 1e6),
            format!("{:.1}", now * 1e6),
            format!("{:.0}", m.turn(0) * 1e9),
            format!("{:.0}", m.turn(1) * 1e9),
            format!("{:.3}", now / before),
        ]
    };
    table(&head, rows.iter().map(row).collect())
}

fn reading(rows: &[Beside]) -> String {
    let head =
        ["nodes", "before", "now", "start before", "start now", "less start before", "less start now", "now to before"];
    let row = |m: &Beside| {
        let less = [0, 1].map(|which| m.reading[which] - m.start[which]);
        let mut row = vec![thousands(m.nodes)];
        row.extend([m.reading, m.start, less].concat().iter().map(|time| format!("{:.2}", time * 1e3)));
        row.push(format!("{:.2}", less[1] / less[0]));
        row
    };
    table(&head, rows.iter().filter(|m| m.potentials == "zero" && m.trips == "any").map(row).collect())
}
