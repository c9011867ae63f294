//! All courses of a rule that are as short as the one that a decision gives, by trying every run of its graph. No run is left out for the
//! nodes or traces that it shares with another, and the order in which they are tried does not matter; so this is for small rules.

use crate::decision::{Graph, Step, Triples};
use crate::reading::Command;
use std::collections::{BTreeMap, BTreeSet};

/// A step's pick word and its place. The or that is number j in the rule has bit j of the word, which is 1 if its right operand is taken.
#[derive(Clone, Copy, Debug, PartialEq, Eq)]
pub struct Picked {
    pub word: u64,
    pub place: u16,
}

/// A course, step by step.
#[derive(Clone, Debug, PartialEq, Eq)]
pub struct Course {
    pub lead: Vec<Picked>,
    pub around: Vec<Picked>,
}

impl Course {
    /// The pick words, the lead-in's first.
    pub fn words(&self) -> Vec<u64> {
        [self.lead_words(), self.loop_words()].concat()
    }

    pub fn lead_words(&self) -> Vec<u64> {
        self.lead.iter().map(|step| step.word).collect()
    }

    pub fn loop_words(&self) -> Vec<u64> {
        self.around.iter().map(|step| step.word).collect()
    }

    pub fn places(&self) -> Vec<u16> {
        self.lead.iter().chain(&self.around).map(|step| step.place).collect()
    }
}

/// All courses with the fewest loop steps, and of these with the fewest lead-in steps, in no order; nothing if no course meets the rule,
/// or if there are more than `most` runs to try, pick words of nodes, or such courses.
pub fn shortest(entries: &[Command], most: usize) -> Option<Vec<Course>> {
    let tries = Tries::new(entries, most)?;
    let nodes: Vec<u64> = tries.steps.keys().copied().collect();
    let loops = tries.fewest(&nodes, |run| run.first == run.last && !tries.graph.bad(&run.triples))?;
    // no step leads to the root, so it has no loop, and a lead-in has a step
    let leads = tries.fewest(&[ROOT], |lead| loops.iter().any(|around| around.first == lead.last))?;
    let joined = leads.iter().flat_map(|lead| loops.iter().filter(|around| around.first == lead.last).map(move |around| (lead, around)));
    let courses: Vec<Course> =
        joined.take(most + 1).map(|(lead, around)| Course { lead: lead.steps.clone(), around: around.steps.clone() }).collect();
    (courses.len() <= most).then_some(courses)
}

/// Whether some run from the root has as many steps as there are nodes, so that it comes to one of them again: round by round those nodes
/// are kept that have a step to one kept before. Nothing if there are more than `most` pick words of nodes.
pub fn runs_on(entries: &[Command], most: usize) -> Option<bool> {
    let tries = Tries::new(entries, most)?;
    let mut kept: BTreeSet<u64> = tries.steps.keys().copied().collect();
    for _ in 0..tries.steps.len() {
        kept = tries.steps.iter().filter(|(_, steps)| steps.iter().any(|step| kept.contains(&step.last))).map(|(&node, _)| node).collect();
    }
    Some(kept.contains(&ROOT))
}

/// The course that comes first by a key. Of the shortest, a decision gives the first by pick words.
pub fn first<K: Ord>(courses: &[Course], key: impl Fn(&Course) -> K) -> &Course {
    courses.iter().min_by_key(|course| key(course)).expect("a course")
}

/// Entry 0 alone.
const ROOT: u64 = 1;

/// A run of one or more steps.
#[derive(Clone)]
struct Run {
    first: u64,
    last: u64,
    steps: Vec<Picked>,
    triples: Triples,
}

/// What can be tried: the runs of one step, by the node that each starts at.
struct Tries<'a> {
    graph: Graph<'a>,
    steps: BTreeMap<u64, Vec<Run>>,
    most: usize,
}

impl<'a> Tries<'a> {
    fn new(entries: &'a [Command], most: usize) -> Option<Self> {
        let mut tries = Tries { graph: Graph::new(entries), steps: BTreeMap::new(), most };
        let mut fringe = vec![ROOT];
        while let Some(node) = fringe.pop() {
            if tries.steps.contains_key(&node) {
                continue;
            }
            if (tries.steps.len() + 1) << tries.graph.ors.len() > most {
                return None;
            }
            let steps: Vec<Run> = tries.graph.steps(node).iter().map(|step| tries.one(node, step)).collect();
            fringe.extend(steps.iter().map(|step| step.last));
            tries.steps.insert(node, steps);
        }
        Some(tries)
    }

    /// The run of one step.
    fn one(&self, node: u64, step: &Step) -> Run {
        let word = self.graph.ors.iter().enumerate().fold(0, |word, (j, &e)| word | (step.pick >> e & 1) << j);
        let steps = vec![Picked { word, place: step.place }];
        Run { first: node, last: step.to, steps, triples: self.graph.triples(node, step.pick) }
    }

    /// All runs from these nodes that are wanted and have the fewest steps, if there are any and not too many are tried.
    fn fewest(&self, nodes: &[u64], wanted: impl Fn(&Run) -> bool) -> Option<Vec<Run>> {
        let mut runs: Vec<Run> = nodes.iter().flat_map(|node| &self.steps[node]).cloned().collect();
        let mut tried = runs.len();
        while !runs.is_empty() && tried <= self.most {
            let found: Vec<Run> = runs.iter().filter(|run| wanted(run)).cloned().collect();
            if !found.is_empty() {
                return Some(found);
            }
            runs = runs.iter().flat_map(|run| self.longer(run)).take(self.most).collect();
            tried += runs.len();
        }
        None
    }

    /// The runs that have one step more than this one.
    fn longer<'b>(&'b self, run: &'b Run) -> impl Iterator<Item = Run> + 'b {
        self.steps[&run.last].iter().map(move |step| Run {
            first: run.first,
            last: step.last,
            steps: [&run.steps[..], &step.steps].concat(),
            triples: self.graph.join(&run.triples, &step.triples),
        })
    }
}
