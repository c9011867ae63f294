//! The decision: the graph of a rule, its profiles up to the shortest good loop, and the course. Nodes and profiles are found breadth
//! first, by rising pick word, and the profiles of one step node by node. So the first good loop that is found has the fewest steps, its
//! node is the nearest to the root with a loop so short, and of several such the lead-in's pick words come first, then the loop's.

use crate::reading::{read, Command, Unreadable};
use crate::scale;
use std::collections::{HashMap, HashSet};
use std::ops::{Range, RangeInclusive};

/// The numbers of nodes for which room may be asked.
pub(crate) const ROOM_FOR_NODES: RangeInclusive<usize> = 1..=1024;

/// What the decision answers. After MET only the profiles of runs of at most `loop_len` steps count, after NOT all.
#[derive(Clone, Debug, PartialEq, Eq)]
pub enum Verdict {
    Unread(Unreadable),
    Refused(u8),
    Met { lead_len: usize, loop_len: usize, nodes: usize, profiles: usize, course: Vec<u16> },
    Not { nodes: usize, profiles: usize },
}

/// Whether any course meets the rule; `work` and `buffer` are the lengths of the areas lent.
pub fn decide(rule: &[u8], n: usize, m: usize, work: usize, buffer: usize) -> Verdict {
    let entries = match read(rule) {
        Ok(entries) => entries,
        Err(why) => return Verdict::Unread(why),
    };
    if let Some(number) = refused_room(n, m, work, buffer) {
        return Verdict::Refused(number);
    }
    let graph = Graph::new(&entries);
    match graph.nodes(n) {
        None => Verdict::Refused(14),
        Some(nodes) => graph.verdict(&nodes, m),
    }
}

/// The questions 11 to 13: the number of the first that refuses.
pub(crate) fn refused_room(n: usize, m: usize, work: usize, buffer: usize) -> Option<u8> {
    if !ROOM_FOR_NODES.contains(&n) || !(1..=4096).contains(&m) {
        return Some(11);
    }
    if work < 8 * n + 192 * m {
        return Some(12);
    }
    (buffer < n + m).then_some(13)
}

/// How many profiles a decision works out before it answers.
#[derive(Clone, Copy, Debug, PartialEq, Eq)]
pub struct Effort {
    /// Those of runs of at most as many steps as the shortest good loop has; all of them if there is none.
    pub profiles: usize,
    /// How many of them were found before the first good loop, if there is one.
    pub before: Option<usize>,
}

/// The effort, if there is room for so many nodes and profiles.
pub fn effort(entries: &[Command], nodes: usize, profiles: usize) -> Option<Effort> {
    let graph = Graph::new(entries);
    let (all, before) = graph.profiles(&graph.nodes(nodes)?, profiles, |x| graph.good(x))?;
    Some(Effort { profiles: all.len(), before })
}

/// How large a rule and its graph are.
#[derive(Clone, Copy, Debug, PartialEq, Eq)]
pub struct Sizes {
    pub commands: usize,
    pub nodes: usize,
    /// The pick words that there are to try, those of every node.
    pub words: usize,
    pub steps: usize,
}

/// The sizes, if there is room for so many nodes.
pub fn sizes(entries: &[Command], room: usize) -> Option<Sizes> {
    let graph = Graph::new(entries);
    let nodes = graph.nodes(room)?;
    let (count, steps) = (nodes.order.len(), nodes.steps.iter().map(Vec::len).sum());
    Some(Sizes { commands: entries.len(), nodes: count, words: count << graph.ors.len(), steps })
}

/// Whether the graph, of at most `nodes` nodes, has more than so many profiles, those of runs longer than a good loop among them.
pub fn has_more_profiles(entries: &[Command], nodes: usize, profiles: usize) -> bool {
    let graph = Graph::new(entries);
    graph.nodes(nodes).is_some_and(|nodes| graph.profiles(&nodes, profiles, |_| false).is_none())
}

/// Of each step that a rule's graph, of at most `room` nodes, lacks for the scale flags alone, the signals that it requires present: both
/// flags are among them, or neither is, since both are required absent.
pub fn lost_to_flags(entries: &[Command], room: usize) -> Vec<u16> {
    let graph = Graph::new(entries);
    let nodes = graph.nodes(room).map_or(Vec::new(), |nodes| nodes.order);
    let lost = |x: &Asked| x.present & x.absent == 0 && scale::place(x.present, x.absent).is_none();
    nodes.iter().flat_map(|&node| graph.asked_by(node)).filter(lost).map(|x| x.present).collect()
}

/// The places of the steps from the root to a node.
fn lead_to(nodes: &Nodes, mut node: usize) -> Vec<u16> {
    let mut lead = Vec::new();
    while let Some((parent, place)) = nodes.came[node] {
        lead.push(place);
        node = parent;
    }
    lead.reverse();
    lead
}

/// The places of a profile's run.
fn around(profiles: &[Profile], found: usize) -> Vec<u16> {
    let mut around = Vec::new();
    let mut at = Some(found);
    while let Some(i) = at {
        around.push(profiles[i].place);
        at = profiles[i].parent;
    }
    around.reverse();
    around
}

/// What a set asks for: its pick (the ors whose right operand is taken), the signals that it requires present and absent, and the operands
/// of its nexts.
struct Asked {
    pick: u64,
    present: u16,
    absent: u16,
    to: u64,
}

/// One step: its pick, its place and where it leads.
pub(crate) struct Step {
    pub(crate) pick: u64,
    pub(crate) place: u16,
    pub(crate) to: u64,
}

pub(crate) struct Nodes {
    /// The sets of entries, bit e for entry e, in the order in which they are found.
    pub(crate) order: Vec<u64>,
    number: HashMap<u64, usize>,
    came: Vec<Option<(usize, u16)>>,
    steps: Vec<Vec<Step>>,
}

impl Nodes {
    /// The nodes to which the steps of a node lead, each once, in the order of the least pick words that lead there.
    pub(crate) fn targets(&self, node: usize) -> Vec<usize> {
        let mut seen = HashSet::new();
        self.steps[node].iter().filter(|step| seen.insert(step.to)).map(|step| self.number[&step.to]).collect()
    }

    /// The step from one node to another, if there is one: of several the one with the least pick word.
    pub(crate) fn step(&self, from: usize, to: usize) -> Option<&Step> {
        self.steps[from].iter().find(|step| step.to == self.order[to])
    }
}

/// Row f, column g: bit k for a trace with the k-th fixpoint's weight, bit 7 for none.
pub(crate) type Triples = Vec<u8>;

struct Profile {
    first: usize,
    last: usize,
    triples: Triples,
    parent: Option<usize>,
    place: u16,
}

/// One step: where it leads, its triples, its place.
type One = (usize, Triples, u16);

/// The profiles found so far.
struct Found {
    all: Vec<Profile>,
    known: HashSet<(usize, usize, Triples)>,
    room: usize,
}

impl Found {
    /// Adds a profile if it is new; nothing if there is no room for it.
    fn add(&mut self, x: Profile) -> Option<()> {
        let key = (x.first, x.last, x.triples.clone());
        if self.known.contains(&key) {
            return Some(());
        }
        if self.all.len() == self.room {
            return None;
        }
        self.known.insert(key);
        self.all.push(x);
        Some(())
    }
}

pub(crate) struct Graph<'a> {
    entries: &'a [Command],
    /// The or commands, by entry.
    pub(crate) ors: Vec<usize>,
    /// The next commands, by entry.
    nexts: Vec<usize>,
    /// For each fixpoint's entry its number among the fixpoints.
    rank: HashMap<usize, u32>,
    /// A bit for each least fixpoint's number.
    least: u8,
}

impl<'a> Graph<'a> {
    pub(crate) fn new(entries: &'a [Command]) -> Self {
        let of = |test: fn(&Command) -> bool| -> Vec<usize> {
            (0..entries.len()).filter(|&e| test(&entries[e])).collect()
        };
        let fixpoints = of(|c| matches!(c, Command::Least(_) | Command::Greatest(_)));
        let least = fixpoints
            .iter()
            .enumerate()
            .filter(|(_, &e)| matches!(entries[e], Command::Least(_)))
            .fold(0, |mask, (k, _)| mask | 1 << k);
        Graph {
            entries,
            ors: of(|c| matches!(c, Command::Or(..))),
            nexts: of(|c| matches!(c, Command::Next(_))),
            rank: fixpoints.iter().enumerate().map(|(k, &e)| (e, k as u32)).collect(),
            least,
        }
    }

    fn moves(&self, e: usize, pick: u64, mut visit: impl FnMut(usize)) {
        match self.entries[e] {
            Command::Variable(m) => visit(m),
            Command::Or(l, r) => visit(if pick >> e & 1 == 1 { r } else { l }),
            Command::And(l, r) => {
                visit(l);
                visit(r);
            }
            Command::Least(l) | Command::Greatest(l) => visit(l),
            _ => {}
        }
    }

    fn closure(&self, node: u64, pick: u64) -> u64 {
        let mut set = node;
        let mut fringe = node;
        while fringe != 0 {
            let e = fringe.trailing_zeros() as usize;
            fringe &= fringe - 1;
            self.moves(e, pick, |m| {
                if set >> m & 1 == 0 {
                    set |= 1 << m;
                    fringe |= 1 << m;
                }
            });
        }
        set
    }

    /// What a node's set with this pick asks for, unless the pick is at an or that it does not meet, or it has false in it.
    fn asked(&self, node: u64, pick: u64) -> Option<Asked> {
        let set = self.closure(node, pick);
        if pick & !set != 0 {
            return None;
        }
        let mut asked = Asked { pick, present: 0, absent: 0, to: 0 };
        let mut rest = set;
        while rest != 0 {
            let e = rest.trailing_zeros() as usize;
            rest &= rest - 1;
            match self.entries[e] {
                Command::False => return None,
                Command::Present(j) => asked.present |= 1 << j,
                Command::Absent(j) => asked.absent |= 1 << j,
                Command::Next(g) => asked.to |= 1 << g,
                _ => {}
            }
        }
        Some(asked)
    }

    /// What the sets of a node ask for, by rising pick word.
    fn asked_by(&self, node: u64) -> impl Iterator<Item = Asked> + '_ {
        (0..1u64 << self.ors.len()).filter_map(move |word| {
            let pick = self.ors.iter().enumerate().fold(0, |p, (j, &e)| p | (word >> j & 1) << e);
            self.asked(node, pick)
        })
    }

    /// The steps of a node, by rising pick word.
    pub(crate) fn steps(&self, node: u64) -> Vec<Step> {
        let step = |Asked { pick, present, absent, to }| scale::place(present, absent).map(|place| Step { pick, place, to });
        self.asked_by(node).filter_map(step).collect()
    }

    /// The reachable nodes, breadth first, if there are at most `room`.
    pub(crate) fn nodes(&self, room: usize) -> Option<Nodes> {
        let mut all = Nodes { order: vec![1], number: HashMap::from([(1, 0)]), came: vec![None], steps: Vec::new() };
        let mut i = 0;
        while i < all.order.len() {
            let steps = self.steps(all.order[i]);
            for s in &steps {
                if !all.number.contains_key(&s.to) {
                    if all.order.len() == room {
                        return None;
                    }
                    all.number.insert(s.to, all.order.len());
                    all.order.push(s.to);
                    all.came.push(Some((i, s.place)));
                }
            }
            all.steps.push(steps);
            i += 1;
        }
        Some(all)
    }

    /// What the decision answers where these are the nodes and there is room for so many profiles.
    pub(crate) fn verdict(&self, nodes: &Nodes, room: usize) -> Verdict {
        let Some((profiles, good)) = self.profiles(nodes, room, |x| self.good(x)) else {
            return Verdict::Refused(15);
        };
        let (k, p) = (nodes.order.len(), profiles.len());
        match good {
            None => Verdict::Not { nodes: k, profiles: p },
            Some(found) => {
                let (lead, around) = (lead_to(nodes, profiles[found].first), around(&profiles, found));
                Verdict::Met { lead_len: lead.len(), loop_len: around.len(), nodes: k, profiles: p, course: [lead, around].concat() }
            }
        }
    }

    /// The weights with which traces from entry f reach each next, in a step with this pick.
    fn traces(&self, f: usize, pick: u64) -> Vec<u8> {
        let mut weights = vec![0u8; self.entries.len()];
        let mut fringe = vec![(f, 7u32)];
        while let Some((e, weight)) = fringe.pop() {
            let weight = self.rank.get(&e).map_or(weight, |&k| weight.min(k));
            if weights[e] >> weight & 1 == 1 {
                continue;
            }
            weights[e] |= 1 << weight;
            self.moves(e, pick, |m| fringe.push((m, weight)));
        }
        self.nexts.iter().map(|&e| weights[e]).collect()
    }

    pub(crate) fn triples(&self, node: u64, pick: u64) -> Triples {
        let n = self.nexts.len();
        let mut all = vec![0; n * n];
        for (row, &e) in self.nexts.iter().enumerate() {
            // the operand of a next is the entry after it
            if node >> (e + 1) & 1 == 1 {
                all[row * n..][..n].copy_from_slice(&self.traces(e + 1, pick));
            }
        }
        all
    }

    pub(crate) fn join(&self, a: &[u8], b: &[u8]) -> Triples {
        let n = self.nexts.len();
        let mut all = vec![0; n * n];
        for f in 0..n {
            for m in 0..n {
                let x = a[f * n + m];
                if x == 0 {
                    continue;
                }
                for g in 0..n {
                    let y = b[m * n + g];
                    if y != 0 {
                        all[f * n + g] |= smaller(x, y);
                    }
                }
            }
        }
        all
    }

    /// The steps of a node.
    fn ones(&self, nodes: &Nodes, first: usize) -> Vec<One> {
        let one = |s: &Step| (nodes.number[&s.to], self.triples(nodes.order[first], s.pick), s.place);
        nodes.steps[first].iter().map(one).collect()
    }

    /// The profiles of runs of one step, then the further ones of runs of two, and so on, if there are at most `room`: up to the first
    /// number of steps with one that is wanted, which is told too, and to the end if none is.
    fn profiles(&self, nodes: &Nodes, room: usize, wanted: impl Fn(&Profile) -> bool) -> Option<(Vec<Profile>, Option<usize>)> {
        let mut found = Found { all: Vec::new(), known: HashSet::new(), room };
        // no run of a profile starts at the root
        let mut ones = vec![Vec::new()];
        for first in 1..nodes.order.len() {
            ones.push(self.ones(nodes, first));
            for (last, triples, place) in &ones[first] {
                found.add(Profile { first, last: *last, triples: triples.clone(), parent: None, place: *place })?;
            }
        }
        let mut latest = 0..found.all.len();
        loop {
            let first_wanted = latest.clone().find(|&i| wanted(&found.all[i]));
            if first_wanted.is_some() || latest.is_empty() {
                return Some((found.all, first_wanted));
            }
            latest = self.longer(&ones, latest, &mut found)?;
        }
    }

    /// Which profiles are new when the runs of these have one step more, if there is room for them.
    fn longer(&self, ones: &[Vec<One>], latest: Range<usize>, found: &mut Found) -> Option<Range<usize>> {
        let known = found.all.len();
        for i in latest {
            let (first, last) = (found.all[i].first, found.all[i].last);
            for (to, triples, place) in &ones[last] {
                let triples = self.join(&found.all[i].triples, triples);
                found.add(Profile { first, last: *to, triples, parent: Some(i), place: *place })?;
            }
        }
        Some(known..found.all.len())
    }

    /// Whether the profile is a good loop's.
    fn good(&self, x: &Profile) -> bool {
        x.first == x.last && !self.bad(&x.triples)
    }

    /// Whether some power has a least fixpoint's weight on its diagonal.
    pub(crate) fn bad(&self, triples: &[u8]) -> bool {
        let n = self.nexts.len();
        let mut sum = triples.to_vec();
        loop {
            if (0..n).any(|f| sum[f * n + f] & self.least != 0) {
                return true;
            }
            let more: Triples = self.join(&sum, triples).iter().zip(&sum).map(|(a, b)| a | b).collect();
            if more == sum {
                return false;
            }
            sum = more;
        }
    }
}

/// The minima of all pairs of a weight in x and a weight in y.
fn smaller(x: u8, y: u8) -> u8 {
    let below = |w: u8| 0xffu8 >> w.leading_zeros();
    (x & below(y)) | (y & below(x))
}
