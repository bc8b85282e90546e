//! Networks and queries (docs/RULES.md, "The network and a query"), the refusal table
//! (docs/RULES.md, "Refusal numbers"), the search
//! (docs/RULES.md, "The search, turn by turn") and what it shows where a cap stops it
//! (docs/RULES.md, "Capped queries"). A missing label is `None`, never a number.

pub const MOST_NODES: usize = 2_048;
pub const MOST_ARCS: usize = 8_192;
pub const TOP_WEIGHT: u32 = 1_000_000;
pub const TOP_POTENTIAL: i32 = 2_047_000_000;
pub const LONGEST_PATTERN: usize = 64;

#[derive(Clone, Copy, Debug, PartialEq, Eq)]
pub struct Arc {
    pub tail: u32,
    pub head: u32,
    pub weight: u32,
}

/// A node is known by its place in the list; it holds its two potentials.
#[derive(Clone, Copy, Debug, PartialEq, Eq)]
pub struct Node {
    pub h: i32,
    pub k: i32,
}

#[derive(Clone, Debug, Default)]
pub struct Network {
    pub nodes: Vec<Node>,
    pub arcs: Vec<Arc>,
}

#[derive(Clone, Debug, PartialEq, Eq)]
pub struct Query {
    pub start: u32,
    pub end: u32,
    pub pattern: Vec<u8>,
    /// The most turns that its search may take, if that is given.
    pub cap: Option<u16>,
}

impl Query {
    pub fn new(start: u32, end: u32, pattern: Vec<u8>) -> Query {
        Query { start, end, pattern, cap: None }
    }

    /// The same query with a cap, or without one.
    pub fn at(&self, cap: Option<u16>) -> Query {
        Query { cap, ..self.clone() }
    }
}

#[derive(Clone, Copy, Debug, PartialEq, Eq)]
pub struct Refusal {
    pub number: u8,
    pub place: u32,
}

#[derive(Clone, Copy, Debug, Default, PartialEq, Eq)]
pub struct Figures {
    pub turns: usize,
    pub opened_by_start: usize,
    pub opened_by_end: usize,
    pub rejected: usize,
}

#[derive(Clone, Debug, PartialEq, Eq)]
pub enum Answer {
    Route {
        length: i64,
        path: Vec<usize>,
        figures: Figures,
    },
    NoRoute {
        figures: Figures,
    },
    Refused(Refusal),
    /// The cap stopped the search: the best length so far, and by how much at most it is too long.
    Provisional {
        length: i64,
        excess: i64,
        path: Vec<usize>,
    },
    /// The cap stopped the search before there was a best length.
    Undecided {
        turns: usize,
    },
}

/// Deliberate faults, for the test of the test.
#[derive(Clone, Copy, Debug, PartialEq, Eq)]
pub enum Fault {
    /// The search stops as soon as some node has both labels.
    FirstMeeting,
    /// Among equal keys the highest number is taken.
    HighestAmongEquals,
    /// A side's floor is worked out before its turn instead of after it.
    FloorBeforeTurn,
    /// Refusals 7 and 9 name the highest bad arc instead of the lowest.
    LastBadArc,
    /// A turn renews the floors of both sides.
    BothFloors,
    /// A bound equal to the best length does not reject.
    RejectsAboveOnly,
    /// The first test of step 4 leaves out the target's potential.
    NoTargetPotential,
    /// A sum equal to the best length moves the meeting node.
    MeetsAtEqual,
    /// A label as good as the old one changes the neighbour.
    RelabelsAtEqual,
    /// A rejecting turn uses up no entry of the pattern.
    RejectingTurnIsFree,
    /// Consistency is tested of h alone.
    ForwardConsistencyOnly,
    /// The last allowed turn is not taken.
    OneTurnTooFew,
    /// Step 2 is left out after the last allowed turn.
    NoStepTwoAtTheCap,
    /// Only a turn that opens a node counts against the cap.
    RejectingTurnIsNotCapped,
    /// The excess is reckoned from the start side's floor alone.
    StartFloorOnly,
    /// The excess is reckoned with the end side's floor less h(end), and the start side's less k(start).
    PotentialsExchanged,
    /// The excess is reckoned from floors from which no potential is taken off.
    FloorsAlone,
    /// The excess is reckoned from the floors alone, without the number 0 beside them.
    ZeroLeftOut,
    /// 20 is tested before 7: bad arcs have no index, and are refused by it.
    IndexBeforeArcs,
    /// A node's arcs stand in the index from the highest number to the lowest.
    FallingOrder,
    /// The arcs out of a node and those into it are exchanged.
    WaysExchanged,
    /// A move exchanges the arc with the one at its new place; the entries between stay.
    ForgetsTheEntriesBetween,
    /// A move leaves the places where the nodes' arcs begin.
    BeginsStay,
    /// An edit that is refused for its values has changed the weight.
    WeightBeforeRefusal,
    /// An edit's new values are tested before its number.
    ValuesBeforeNumber,
    /// 20 looks at the entries beyond the index too.
    TestsBeyondTheIndex,
    /// 20 is never given.
    IndexNotTested,
}

impl Fault {
    /// Those that can show in the answers to files.
    pub const OF_FILES: [Fault; 19] = [
        Fault::FirstMeeting,
        Fault::HighestAmongEquals,
        Fault::FloorBeforeTurn,
        Fault::LastBadArc,
        Fault::BothFloors,
        Fault::RejectsAboveOnly,
        Fault::NoTargetPotential,
        Fault::MeetsAtEqual,
        Fault::RelabelsAtEqual,
        Fault::RejectingTurnIsFree,
        Fault::ForwardConsistencyOnly,
        Fault::OneTurnTooFew,
        Fault::NoStepTwoAtTheCap,
        Fault::RejectingTurnIsNotCapped,
        Fault::StartFloorOnly,
        Fault::PotentialsExchanged,
        Fault::FloorsAlone,
        Fault::ZeroLeftOut,
        Fault::IndexBeforeArcs,
    ];

    /// Those that can show in indexes.
    pub const OF_INDEXES: [Fault; 9] = [
        Fault::IndexBeforeArcs,
        Fault::FallingOrder,
        Fault::WaysExchanged,
        Fault::ForgetsTheEntriesBetween,
        Fault::BeginsStay,
        Fault::WeightBeforeRefusal,
        Fault::ValuesBeforeNumber,
        Fault::TestsBeyondTheIndex,
        Fault::IndexNotTested,
    ];

    pub fn name(self) -> &'static str {
        match self {
            Fault::FirstMeeting => "first-meeting",
            Fault::HighestAmongEquals => "highest-among-equals",
            Fault::FloorBeforeTurn => "floor-before-turn",
            Fault::LastBadArc => "last-bad-arc",
            Fault::BothFloors => "both-floors",
            Fault::RejectsAboveOnly => "rejects-above-only",
            Fault::NoTargetPotential => "no-target-potential",
            Fault::MeetsAtEqual => "meets-at-equal",
            Fault::RelabelsAtEqual => "relabels-at-equal",
            Fault::RejectingTurnIsFree => "rejecting-turn-is-free",
            Fault::ForwardConsistencyOnly => "forward-consistency-only",
            Fault::OneTurnTooFew => "one-turn-too-few",
            Fault::NoStepTwoAtTheCap => "no-step-2-at-the-cap",
            Fault::RejectingTurnIsNotCapped => "rejecting-turn-is-not-capped",
            Fault::StartFloorOnly => "start-floor-only",
            Fault::PotentialsExchanged => "potentials-exchanged",
            Fault::FloorsAlone => "floors-alone",
            Fault::ZeroLeftOut => "zero-left-out",
            Fault::IndexBeforeArcs => "index-before-arcs",
            Fault::FallingOrder => "falling-order",
            Fault::WaysExchanged => "ways-exchanged",
            Fault::ForgetsTheEntriesBetween => "forgets-the-entries-between",
            Fault::BeginsStay => "begins-stay",
            Fault::WeightBeforeRefusal => "weight-before-refusal",
            Fault::ValuesBeforeNumber => "values-before-number",
            Fault::TestsBeyondTheIndex => "tests-beyond-the-index",
            Fault::IndexNotTested => "index-not-tested",
        }
    }

    pub fn named(name: &str) -> Option<Fault> {
        Fault::OF_FILES.into_iter().chain(Fault::OF_INDEXES).find(|fault| fault.name() == name)
    }
}

// ---------------------------------------------------------------- refusals

/// Numbers 1 and 2, which a file already meets in its frame 01.
pub fn size_refusal(nodes: usize, arcs: usize) -> Option<Refusal> {
    if nodes == 0 || nodes > MOST_NODES {
        return Some(Refusal { number: 1, place: 0 });
    }
    if arcs > MOST_ARCS {
        return Some(Refusal { number: 2, place: 0 });
    }
    None
}

/// The table's numbers 1 to 9 in order. Numbers 3 and 6 and the first half of 2
/// cannot arise here: arcs and nodes are lists of structs, and no list is lent. Nor can 19 and 20, which are about an
/// index: `index.rs` has those.
pub fn refusal(network: &Network, query: &Query, fault: Option<Fault>) -> Option<Refusal> {
    let count = network.nodes.len();
    if let Some(refusal) = size_refusal(count, network.arcs.len()) {
        return Some(refusal);
    }
    if query.start as usize >= count || query.end as usize >= count {
        return Some(Refusal { number: 4, place: 0 });
    }
    if !sound_pattern(&query.pattern) {
        return Some(Refusal { number: 5, place: 0 });
    }
    if let Some(place) = bad_arc(network, fault, |arc| malformed(arc, count)) {
        if fault == Some(Fault::IndexBeforeArcs) {
            return Some(Refusal { number: 20, place: 0 });
        }
        return Some(Refusal { number: 7, place });
    }
    if let Some(node) = network.nodes.iter().position(out_of_range) {
        return Some(Refusal { number: 8, place: node as u32 });
    }
    if let Some(place) = bad_arc(network, fault, |arc| breaks_consistency(arc, &network.nodes, fault)) {
        return Some(Refusal { number: 9, place });
    }
    None
}

fn sound_pattern(pattern: &[u8]) -> bool {
    !pattern.is_empty() && pattern.len() <= LONGEST_PATTERN && pattern.iter().all(|&entry| entry <= 1)
}

/// What 7 asks of an arc.
pub fn malformed(arc: &Arc, nodes: usize) -> bool {
    arc.tail as usize >= nodes || arc.head as usize >= nodes || arc.weight > TOP_WEIGHT
}

fn out_of_range(node: &Node) -> bool {
    let allowed = -TOP_POTENTIAL..=TOP_POTENTIAL;
    !allowed.contains(&node.h) || !allowed.contains(&node.k)
}

/// Only asked of arcs whose tail and head are nodes.
fn breaks_consistency(arc: &Arc, nodes: &[Node], fault: Option<Fault>) -> bool {
    let (u, v) = (nodes[arc.tail as usize], nodes[arc.head as usize]);
    let weight = i64::from(arc.weight);
    let forward = i64::from(u.h) - i64::from(v.h);
    let backward = i64::from(v.k) - i64::from(u.k);
    forward > weight || (backward > weight && fault != Some(Fault::ForwardConsistencyOnly))
}

fn bad_arc(network: &Network, fault: Option<Fault>, bad: impl Fn(&Arc) -> bool) -> Option<u32> {
    let place = match fault {
        Some(Fault::LastBadArc) => network.arcs.iter().rposition(bad),
        _ => network.arcs.iter().position(bad),
    };
    place.map(|place| place as u32)
}

// ---------------------------------------------------------------- the search

#[derive(Clone, Copy, Debug, PartialEq, Eq)]
pub enum Side {
    Start,
    End,
}

impl Side {
    pub fn other(self) -> Side {
        match self {
            Side::Start => Side::End,
            Side::End => Side::Start,
        }
    }

    /// The side's own potential of a node.
    pub fn potential(self, node: Node) -> i64 {
        match self {
            Side::Start => i64::from(node.h),
            Side::End => i64::from(node.k),
        }
    }

    /// The node an arc leads away from and the node it leads to, as this side walks it.
    pub fn near_and_far(self, arc: &Arc) -> (usize, usize) {
        let (tail, head) = (arc.tail as usize, arc.head as usize);
        match self {
            Side::Start => (tail, head),
            Side::End => (head, tail),
        }
    }
}

#[derive(Clone, Copy, Debug, PartialEq, Eq)]
pub enum State {
    Undecided,
    Opened(Side),
    Rejected(Side),
}

/// What one side knows.
#[derive(Clone, Debug)]
pub struct Half {
    pub labels: Vec<Option<i64>>,
    pub neighbours: Vec<Option<usize>>,
    /// The node this side begins at.
    pub origin: usize,
    pub floor: i64,
}

/// The search as it stands between two turns.
#[derive(Clone, Debug)]
pub struct Search<'a> {
    network: &'a Network,
    pub states: Vec<State>,
    pub start_half: Half,
    pub end_half: Half,
    /// Best length and meeting node.
    pub best: Option<(i64, usize)>,
    fault: Option<Fault>,
}

impl<'a> Search<'a> {
    /// Step 1.
    fn begin(network: &'a Network, start: usize, end: usize, fault: Option<Fault>) -> Search<'a> {
        let half = |side: Side, origin: usize| {
            let mut labels = vec![None; network.nodes.len()];
            labels[origin] = Some(0);
            Half {
                labels,
                neighbours: vec![None; network.nodes.len()],
                origin,
                floor: side.potential(network.nodes[origin]),
            }
        };
        Search {
            network,
            states: vec![State::Undecided; network.nodes.len()],
            start_half: half(Side::Start, start),
            end_half: half(Side::End, end),
            best: None,
            fault,
        }
    }

    fn faulty(&self, fault: Fault) -> bool {
        self.fault == Some(fault)
    }

    pub fn half(&self, side: Side) -> &Half {
        match side {
            Side::Start => &self.start_half,
            Side::End => &self.end_half,
        }
    }

    fn half_mut(&mut self, side: Side) -> &mut Half {
        match side {
            Side::Start => &mut self.start_half,
            Side::End => &mut self.end_half,
        }
    }

    /// Label plus own potential of every labelled undecided node, in node order.
    fn candidates(&self, side: Side) -> impl Iterator<Item = (i64, usize)> + '_ {
        let labels = &self.half(side).labels;
        (0..self.states.len()).filter(|&node| self.states[node] == State::Undecided).filter_map(move |node| {
            let label = labels[node]?;
            Some((label + side.potential(self.network.nodes[node]), node))
        })
    }

    /// Step 3's choice: the least key, and among equals the lowest number.
    fn choice(&self, side: Side) -> Option<(i64, usize)> {
        let mut chosen: Option<(i64, usize)> = None;
        for (key, node) in self.candidates(side) {
            let better = match chosen {
                None => true,
                Some((least, _)) if self.faulty(Fault::HighestAmongEquals) => key <= least,
                Some((least, _)) => key < least,
            };
            if better {
                chosen = Some((key, node));
            }
        }
        chosen
    }

    /// Step 2.
    fn ended(&self) -> bool {
        if self.faulty(Fault::FirstMeeting) && self.best.is_some() {
            return true;
        }
        self.candidates(Side::Start).next().is_none() || self.candidates(Side::End).next().is_none()
    }

    /// Steps 3 to 6. True if the node was opened.
    fn turn(&mut self, side: Side) -> bool {
        let (key, u) = self.choice(side).expect("step 2 saw a labelled undecided node");
        let label = self.half(side).labels[u].expect("a candidate has a label");
        let opened = !self.to_be_rejected(side, u, label);
        if opened {
            self.states[u] = State::Opened(side);
            self.look_at_arcs(side, u, label);
        } else {
            self.states[u] = State::Rejected(side);
        }
        self.renew_floor(side);
        if self.faulty(Fault::FloorBeforeTurn) {
            self.half_mut(side).floor = key;
        }
        if self.faulty(Fault::BothFloors) {
            self.renew_floor(side.other());
        }
        opened
    }

    /// Step 6.
    fn renew_floor(&mut self, side: Side) {
        let least = self.candidates(side).map(|(key, _)| key).min();
        if let Some(least) = least {
            self.half_mut(side).floor = least;
        }
    }

    /// Step 4.
    fn to_be_rejected(&self, side: Side, u: usize, label: i64) -> bool {
        let Some((best, _)) = self.best else {
            return false;
        };
        let nodes = &self.network.nodes;
        let other = side.other();
        let target = self.half(other).origin;
        let at_target = if self.faulty(Fault::NoTargetPotential) { 0 } else { side.potential(nodes[target]) };
        let own_bound = label + side.potential(nodes[u]) - at_target;
        let other_bound = label + self.half(other).floor - other.potential(nodes[u]);
        if self.faulty(Fault::RejectsAboveOnly) {
            return own_bound > best || other_bound > best;
        }
        own_bound >= best || other_bound >= best
    }

    /// Step 5.
    fn look_at_arcs(&mut self, side: Side, u: usize, label: i64) {
        let network = self.network;
        for arc in &network.arcs {
            let (near, far) = side.near_and_far(arc);
            if near != u || self.states[far] != State::Undecided {
                continue;
            }
            let through = label + i64::from(arc.weight);
            let equal_will_do = self.faulty(Fault::RelabelsAtEqual);
            if self.half(side).labels[far].is_none_or(|old| through < old || (equal_will_do && through == old)) {
                let half = self.half_mut(side);
                half.labels[far] = Some(through);
                half.neighbours[far] = Some(u);
            }
            self.perhaps_meet(far);
            if self.faulty(Fault::FirstMeeting) && self.best.is_some() {
                return;
            }
        }
    }

    fn perhaps_meet(&mut self, node: usize) {
        let (Some(a), Some(b)) = (self.start_half.labels[node], self.end_half.labels[node]) else {
            return;
        };
        let equal_will_do = self.faulty(Fault::MeetsAtEqual);
        if self.best.is_none_or(|(best, _)| best > a + b || (equal_will_do && best == a + b)) {
            self.best = Some((a + b, node));
        }
    }

    fn count(&self, state: State) -> usize {
        self.states.iter().filter(|&&found| found == state).count()
    }

    pub fn figures(&self) -> Figures {
        let undecided = self.count(State::Undecided);
        Figures {
            turns: self.states.len() - undecided,
            opened_by_start: self.count(State::Opened(Side::Start)),
            opened_by_end: self.count(State::Opened(Side::End)),
            rejected: self.count(State::Rejected(Side::Start)) + self.count(State::Rejected(Side::End)),
        }
    }

    /// By how much the best length may be too long: the best length less the largest of three
    /// numbers (0, the start side's floor less h(end), the end side's floor less k(start)), and 0 if that is negative.
    fn excess(&self, best: i64) -> i64 {
        let nodes = &self.network.nodes;
        let (start, end) = (nodes[self.start_half.origin], nodes[self.end_half.origin]);
        let (h_end, k_start) = (i64::from(end.h), i64::from(start.k));
        let (start_floor, end_floor) = (self.start_half.floor, self.end_half.floor);
        let least_true = match self.fault {
            Some(Fault::StartFloorOnly) => (start_floor - h_end).max(0),
            Some(Fault::PotentialsExchanged) => (start_floor - k_start).max(end_floor - h_end).max(0),
            Some(Fault::FloorsAlone) => start_floor.max(end_floor).max(0),
            Some(Fault::ZeroLeftOut) => (start_floor - h_end).max(end_floor - k_start),
            _ => (start_floor - h_end).max(end_floor - k_start).max(0),
        };
        (best - least_true).max(0)
    }

    /// From the meeting node back to the start, and on to the end.
    fn path(&self, meeting: usize) -> Vec<usize> {
        let follow = |half: &Half| {
            let mut met = Vec::new();
            let mut at = meeting;
            while let Some(next) = half.neighbours[at] {
                met.push(next);
                at = next;
                // A ring of neighbours is a fault of the model: do not walk it for ever.
                assert!(met.len() <= self.states.len(), "neighbours go round in a ring");
            }
            met
        };
        let mut path = follow(&self.start_half);
        path.reverse();
        path.push(meeting);
        path.extend(follow(&self.end_half));
        path
    }
}

/// What became of a query: the answer, and the tables where it was accepted.
pub struct Outcome<'a> {
    pub answer: Answer,
    pub tables: Option<Search<'a>>,
    /// The number of turns really taken, beside the count of the states.
    pub turns_taken: usize,
}

pub fn answer<'a>(network: &'a Network, query: &Query, fault: Option<Fault>) -> Outcome<'a> {
    if let Some(refusal) = refusal(network, query, fault) {
        return Outcome { answer: Answer::Refused(refusal), tables: None, turns_taken: 0 };
    }
    let (start, end) = (query.start as usize, query.end as usize);
    let mut search = Search::begin(network, start, end, fault);
    if start == end {
        let answer = Answer::Route { length: 0, path: vec![start], figures: Figures::default() };
        return Outcome { answer, tables: Some(search), turns_taken: 0 };
    }
    let mut cap = query.cap.map(usize::from);
    if search.faulty(Fault::OneTurnTooFew) {
        cap = cap.map(|cap| cap.saturating_sub(1));
    }
    let mut turns_taken = 0;
    let mut counted = 0;
    let mut entry = 0;
    let ended = loop {
        if search.faulty(Fault::NoStepTwoAtTheCap) && cap == Some(counted) {
            break false;
        }
        if search.ended() {
            break true;
        }
        if cap == Some(counted) {
            break false;
        }
        let side = match query.pattern[entry % query.pattern.len()] {
            0 => Side::Start,
            _ => Side::End,
        };
        let opened = search.turn(side);
        turns_taken += 1;
        if opened || !search.faulty(Fault::RejectingTurnIsNotCapped) {
            counted += 1;
        }
        if opened || !search.faulty(Fault::RejectingTurnIsFree) {
            entry += 1;
        }
    };
    let figures = search.figures();
    let answer = match (ended, search.best) {
        (true, None) => Answer::NoRoute { figures },
        (true, Some((length, meeting))) => Answer::Route { length, path: search.path(meeting), figures },
        (false, None) => Answer::Undecided { turns: turns_taken },
        (false, Some((length, meeting))) => {
            Answer::Provisional { length, excess: search.excess(length), path: search.path(meeting) }
        }
    };
    Outcome { answer, tables: Some(search), turns_taken }
}
