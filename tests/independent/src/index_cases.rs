//! What should be printed of indexes (docs/RULES.md, "The index"): of some builds by the program `cases`; and by the program of
//! `rattle/`, of edits and queries one by one and of networks drawn by lot, with many edits each.

use crate::cases;
use crate::frames;
use crate::index::{Change, Held, Index, LISTS};
use crate::model::{Arc, Fault, Network, Node, Query, Refusal, MOST_ARCS, MOST_NODES};

/// What lent lists hold before a build, and what stands in an index where it is made wrong.
const OLD: u32 = 77;
const NO_ENTRY: u32 = 65_535;

/// What the program of `rattle/` should print.
pub fn text(fault: Option<Fault>) -> String {
    let one_by_one = [short_lists(fault), edits(fault), refused_edits(fault), queries(fault)];
    let (drawn, _) = drawn(fault);
    one_by_one.concat() + &drawn
}

// ---------------------------------------------------------------- networks and words

fn held(nodes: usize, tails: &[u32], heads: &[u32], weights: &[u32], rooms: [usize; 4]) -> Held {
    let index = rooms.map(|room| vec![OLD; room]);
    Held { nodes, tails: tails.to_vec(), heads: heads.to_vec(), weights: weights.to_vec(), index }
}

const AMPLE: [usize; 4] = [8; 4];

fn d5() -> Held {
    held(5, &[0, 1, 2, 0, 4], &[1, 2, 3, 4, 3], &[1, 1, 1, 2, 2], AMPLE)
}

/// Two arcs from 0 to 1, two from 1 to itself, and one from 2 to 0.
fn looped() -> Held {
    held(3, &[0, 1, 2, 0, 1], &[1, 1, 0, 1, 1], &[1, 1, 1, 2, 2], AMPLE)
}

fn verdict(name: &str, refusal: Option<Refusal>) -> String {
    match refusal {
        None => format!("{name}: accepted\n"),
        Some(refusal) => format!("{name}: refused, {}", frames::refusal_line(refusal)),
    }
}

fn row(title: &str, list: &[u32], bar: usize) -> String {
    let entries: Vec<i64> = list.iter().map(|&entry| i64::from(entry)).collect();
    cases::row(title, &entries, bar)
}

/// The four lists of an index, each with a bar after what the index has there: nothing, if its build was refused.
fn lists(held: &Held, built: Option<Refusal>) -> String {
    let bars = if built.is_none() { held.counts() } else { [0; 4] };
    LISTS.iter().zip(&held.index).zip(bars).map(|((title, list), bar)| row(title, list, bar)).collect()
}

fn arcs(held: &Held) -> String {
    let named = [("tails", &held.tails), ("heads", &held.heads), ("weights", &held.weights)];
    named.map(|(title, list)| row(title, list, list.len())).concat()
}

// ---------------------------------------------------------------- one by one

fn build(name: &str, mut held: Held, fault: Option<Fault>) -> String {
    let built = held.build(fault);
    verdict(name, built) + &lists(&held, built)
}

/// What `cases` prints.
pub fn builds(fault: Option<Fault>) -> String {
    let bad_tail = Held { tails: vec![0, 1, 5, 0, 5], ..d5() };
    let all = [
        ("index of D5", d5()),
        ("index with loops", looped()),
        ("index of no arcs", held(1, &[], &[], &[], AMPLE)),
        ("index, nine arcs", held(1, &[0; 9], &[0; 9], &[0; 9], AMPLE)),
        ("index, eight nodes", held(8, &[0], &[1], &[1], AMPLE)),
        ("index, bad tail", bad_tail),
    ];
    all.map(|(name, held)| build(name, held, fault)).concat()
}

fn short_lists(fault: Option<Fault>) -> String {
    let one = |at: usize| {
        let mut held = d5();
        held.index = held.counts().map(|count| vec![OLD; count]);
        held.index[at].pop();
        let name = format!("{} one short", LISTS[at]);
        let edited = held.edit(change(0, 1, 0, 2), fault);
        verdict(&format!("edit, {name}"), edited) + &build(&format!("index, {name}"), held, fault)
    };
    [0, 1, 2, 3].map(one).concat()
}

fn change(number: u32, tail: u32, head: u32, weight: u32) -> Change {
    Change { number, arc: Arc { tail, head, weight } }
}

/// An edit over an index that is built for it, and of which an entry may then be made wrong: list and place.
fn edit(name: &str, mut held: Held, wrong: Option<(usize, usize)>, change: Change, fault: Option<Fault>) -> String {
    let built = held.build(fault);
    if let Some((list, place)) = wrong {
        held.index[list][place] = NO_ENTRY;
    }
    let edited = held.edit(change, fault);
    verdict(name, edited) + &arcs(&held) + &lists(&held, built)
}

fn edits(fault: Option<Fault>) -> String {
    let all = [
        ("edit, to its own place", d5(), None, change(1, 1, 2, 1)),
        ("edit, weight alone", d5(), None, change(3, 0, 4, 1_000_000)),
        ("edit, first arc", d5(), None, change(0, 4, 0, 1)),
        ("edit, last arc", d5(), None, change(4, 0, 0, 1)),
        ("edit, tail alone", d5(), None, change(2, 4, 3, 1)),
        ("edit, head alone", d5(), None, change(2, 2, 0, 1)),
        ("edit, turned round", d5(), None, change(1, 2, 1, 1)),
        ("edit, loop moved", looped(), None, change(1, 2, 2, 1)),
        ("edit, loop opened", looped(), None, change(4, 1, 0, 1)),
        ("edit, loop closed", looped(), None, change(2, 0, 0, 1)),
        ("edit, parallel moved", looped(), None, change(0, 2, 0, 1)),
        ("edit, entry beyond the index", d5(), Some((0, 5)), change(0, 1, 0, 1)),
    ];
    all.map(|(name, held, wrong, change)| edit(name, held, wrong, change, fault)).concat()
}

fn refused_edits(fault: Option<Fault>) -> String {
    let mut bad_arcs = d5();
    bad_arcs.weights = vec![1, 1, 1_000_001, 2, 1_000_001];
    let all = [
        ("edit, wrong out arcs", d5(), Some((0, 4)), change(0, 1, 0, 1)),
        ("edit, wrong out begins", d5(), Some((1, 0)), change(0, 1, 0, 1)),
        ("edit, wrong in arcs", d5(), Some((2, 0)), change(0, 1, 0, 1)),
        ("edit, wrong in begins", d5(), Some((3, 5)), change(0, 1, 0, 1)),
        ("edit, no such arc", d5(), None, change(5, 1, 0, 1)),
        ("edit, arc 65,535", d5(), None, change(65_535, 1, 0, 1)),
        ("edit, bad tail", d5(), None, change(1, 5, 0, 1)),
        ("edit, bad head", d5(), None, change(2, 0, 5, 1)),
        ("edit, bad weight", d5(), None, change(4, 0, 1, 1_000_001)),
        ("edit, wrong index and no such arc", d5(), Some((2, 2)), change(5, 1, 0, 1)),
        ("edit, no such arc and bad values", d5(), None, change(5, 5, 5, 1_000_001)),
        ("edit, bad arc before all of these", bad_arcs, None, change(5, 5, 5, 1_000_001)),
    ];
    all.map(|(name, held, wrong, change)| edit(name, held, wrong, change, fault)).concat()
}

// ---------------------------------------------------------------- queries over an index

/// The index of D5, by hand.
fn d5_index() -> Index {
    [vec![0, 3, 1, 2, 4], vec![0, 2, 3, 4, 4, 5], vec![0, 1, 2, 4, 3], vec![0, 0, 1, 2, 4, 5]]
}

/// What is asked of D5 over an index: the weight of arc 0, the potential of node 0 on both sides, and the index.
struct Asked {
    name: &'static str,
    weight: u32,
    potential: i32,
    index: Index,
}

fn queries(fault: Option<Fault>) -> String {
    let right = |name, potential| Asked { name, weight: 1, potential, index: d5_index() };
    let over = |name, at: usize, list: &[u32]| {
        let mut index = d5_index();
        index[at] = list.to_vec();
        Asked { name, weight: 1, potential: 0, index }
    };
    let exchanged = |name, weight, potential| {
        let [out_arcs, out_begins, in_arcs, in_begins] = d5_index();
        Asked { name, weight, potential, index: [in_arcs, in_begins, out_arcs, out_begins] }
    };
    let all = [
        right("query", 0),
        right("query, 8", 2_047_000_001),
        right("query, 9", 2),
        over("query, out arcs one short", 0, &[0, 3, 1, 2]),
        over("query, out begins one short", 1, &[0, 2, 3, 4, 4]),
        over("query, in arcs one short", 2, &[0, 1, 2, 4]),
        over("query, in begins one short", 3, &[0, 0, 1, 2, 4]),
        over("query, out arcs in falling order", 0, &[3, 0, 1, 2, 4]),
        over("query, wrong out begins", 1, &[0, 2, 3, 4, 5, 5]),
        over("query, in arcs in falling order", 2, &[0, 1, 4, 2, 3]),
        over("query, wrong in begins", 3, &[0, 0, 1, 2, 4, 6]),
        exchanged("query, out and in exchanged", 1, 0),
        exchanged("query, 20 and 7", 1_000_001, 0),
        exchanged("query, 20 and 8", 1, 2_047_000_001),
        exchanged("query, 20 and 9", 1, 2),
    ];
    all.map(|asked| query(asked, fault)).concat()
}

fn query(asked: Asked, fault: Option<Fault>) -> String {
    let mut held = Held { index: asked.index, ..d5() };
    held.weights[0] = asked.weight;
    let mut nodes = vec![Node { h: 0, k: 0 }; 5];
    nodes[0] = Node { h: asked.potential, k: asked.potential };
    verdict(asked.name, held.query_refusal(&nodes, &Query::new(0, 3, vec![0, 1]), fault))
}

// ---------------------------------------------------------------- drawn by lot

/// How many small networks there are, how many edits a small one has and a large one, and how many entries more than needed
/// the lists of an index have.
const SMALL: usize = 300;
const FEW_EDITS: usize = 16;
const MANY_EDITS: usize = 64;
const BEYOND: usize = 3;

/// The numbers that are drawn, each from the one before (Park and Miller's generator).
struct Lot {
    last: u64,
}

impl Lot {
    fn draw(&mut self) -> u64 {
        self.last = self.last * 48_271 % 2_147_483_647;
        self.last
    }

    /// A number from 0 to the most that it may be.
    fn up_to(&mut self, most: usize) -> u32 {
        (self.draw() % (most as u64 + 1)) as u32
    }
}

/// A sum over numbers in their order.
#[derive(Default)]
struct Sum {
    sum: u64,
}

impl Sum {
    fn add(&mut self, number: u32) {
        self.sum = (self.sum * 65_599 + u64::from(number)) % 4_294_967_291;
    }

    fn add_all(&mut self, lists: &[&[u32]]) {
        for number in lists.iter().copied().flatten() {
            self.add(*number);
        }
    }
}

/// How often each kind of edit was drawn, by name.
pub type Kinds = Vec<(&'static str, usize)>;

/// A network that is drawn: whether its lists are shown, how many nodes and arcs it has, and the most that tails and heads may
/// be.
struct Plan {
    shown: bool,
    nodes: usize,
    arcs: usize,
    most_tail: usize,
    most_head: usize,
}

/// What is printed of the networks drawn by lot, and the kinds of edits among them.
pub fn drawn(fault: Option<Fault>) -> (String, Kinds) {
    let mut text = String::new();
    let mut met = Vec::new();
    let mut lot = Lot { last: 1 };
    for _ in 0..SMALL {
        let most = lot.up_to(5) as usize;
        let arcs = lot.up_to(10) as usize;
        let plan = Plan { shown: true, nodes: most + 1, arcs, most_tail: most, most_head: most };
        text += &network(&plan, &mut lot, &mut met, fault);
    }
    let most = MOST_NODES - 1;
    let large = [
        (MOST_NODES, MOST_ARCS, most, most),
        (MOST_NODES, MOST_ARCS, 0, most),
        (MOST_NODES, MOST_ARCS, most, 0),
        (1, MOST_ARCS, 0, 0),
        (MOST_NODES, MOST_ARCS, 7, 7),
        (300, 700, 299, 299),
    ];
    let mut lot = Lot { last: 1 };
    for (nodes, arcs, most_tail, most_head) in large {
        let plan = Plan { shown: false, nodes, arcs, most_tail, most_head };
        text += &network(&plan, &mut lot, &mut met, fault);
    }
    (text, tally(&met))
}

fn network(plan: &Plan, lot: &mut Lot, met: &mut Vec<&'static str>, fault: Option<Fault>) -> String {
    let &Plan { shown, nodes, arcs, .. } = plan;
    let mut text = format!("network of {nodes} nodes and {arcs} arcs\n");
    let tails: Vec<u32> = (0..arcs).map(|_| lot.up_to(plan.most_tail)).collect();
    let heads: Vec<u32> = (0..arcs).map(|_| lot.up_to(plan.most_head)).collect();
    let weights: Vec<u32> = (0..arcs).map(|_| lot.up_to(1_000_000)).collect();
    let begins = nodes + 1 + BEYOND;
    let mut held = held(nodes, &tails, &heads, &weights, [arcs + BEYOND, begins, arcs + BEYOND, begins]);
    held.build(fault);
    let mut sum = Sum::default();
    for _ in 0..if shown { FEW_EDITS } else { MANY_EDITS } {
        let (number, tail, head) = (lot.up_to(arcs), lot.up_to(nodes), lot.up_to(nodes));
        let weight = (lot.draw() % 17 * 62_501) as u32;
        let before = held.clone();
        let change = change(number, tail, head, weight);
        let refusal = held.edit_known(change, fault);
        met.extend(kinds(&before, change, refusal));
        sum.add(refusal.map_or(0, |Refusal { number, place }| u32::from(number) * 65_536 + place));
        sum.add_all(&[&held.tails, &held.heads, &held.weights]);
        let index: Vec<&[u32]> = held.index.iter().map(Vec::as_slice).collect();
        sum.add_all(&index);
        if shown {
            text += &(verdict("edit", refusal) + &self::arcs(&held) + &lists(&held, None));
        }
    }
    text += &format!("sum {}\n", sum.sum);
    let query = Query::new(lot.up_to(nodes), lot.up_to(nodes), vec![0, 1]);
    if shown {
        let network = Network { nodes: vec![Node { h: 0, k: 0 }; nodes], arcs: held.arcs() };
        text += &cases::asked("query", &network, &query, fault);
    }
    let (list, place) = (lot.up_to(3) as usize, lot.up_to(arcs) as usize);
    if let Some(entry) = held.index[list].get_mut(place) {
        *entry = NO_ENTRY;
    }
    let refusal = held.edit(change(0, 0, 0, 0), fault);
    met.push(match refusal.map(|refusal| refusal.number) {
        Some(20) => "over a wrong index",
        Some(_) => "of no arcs at all",
        None => "over an index with a wrong entry beyond it",
    });
    text + &verdict("edit, an entry wrong", refusal)
}

/// Every kind of edit that should be among those drawn.
const KINDS: [&str; 16] = [
    "no such arc",
    "bad tail",
    "bad head",
    "bad weight",
    "to its own place",
    "weight alone",
    "of the first arc",
    "of the last arc",
    "to a node further on",
    "to a node further back",
    "of an arc from a node to itself",
    "to an arc from a node to itself",
    "over a wrong index",
    "over an index with a wrong entry beyond it",
    "of no arcs at all",
    "of an arc that has a parallel one",
];

/// The kinds that an edit is of.
fn kinds(before: &Held, change: Change, refusal: Option<Refusal>) -> Vec<&'static str> {
    let Change { number, arc } = change;
    let all = before.arcs();
    let Some(&old) = all.get(number as usize) else {
        return vec!["no such arc"];
    };
    let is_node = |node: u32| (node as usize) < before.nodes;
    let parallel = |other: &&Arc| (other.tail, other.head) == (old.tail, old.head);
    let accepted = refusal.is_none();
    let stays = (arc.tail, arc.head) == (old.tail, old.head);
    let each = [
        ("bad tail", !is_node(arc.tail)),
        ("bad head", !is_node(arc.head)),
        ("bad weight", arc.weight > 1_000_000),
        ("to its own place", accepted && arc == old),
        ("weight alone", accepted && stays && arc.weight != old.weight),
        ("of the first arc", accepted && !stays && number == 0),
        ("of the last arc", accepted && !stays && number as usize + 1 == all.len()),
        ("to a node further on", accepted && arc.tail > old.tail && arc.head > old.head),
        ("to a node further back", accepted && arc.tail < old.tail && arc.head < old.head),
        ("of an arc from a node to itself", accepted && !stays && old.tail == old.head),
        ("to an arc from a node to itself", accepted && !stays && arc.tail == arc.head),
        ("of an arc that has a parallel one", accepted && !stays && all.iter().filter(parallel).count() > 1),
    ];
    each.into_iter().filter(|(_, is)| *is).map(|(name, _)| name).collect()
}

fn tally(met: &[&'static str]) -> Kinds {
    KINDS.iter().map(|&kind| (kind, met.iter().filter(|&&name| name == kind).count())).collect()
}
