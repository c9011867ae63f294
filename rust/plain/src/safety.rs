//! The decision of safety rules, which have greatest fixpoints alone: none of their loops is bad, so nodes and steps are all that it takes.
//! Both areas lent are left just as they are to be.

use crate::decision::{Graph, Nodes, ROOM_FOR_NODES};
use crate::reading::{read, Command, Unreadable};

/// What the operation answers.
#[derive(Clone, Debug, PartialEq, Eq)]
pub enum SafetyVerdict {
    Unread(Unreadable),
    /// 43: the place of the first least fixpoint's byte.
    Least(usize),
    Refused(u8),
    Met {
        lead_len: usize,
        loop_len: usize,
        nodes: usize,
        course: Vec<u16>,
    },
    Not {
        nodes: usize,
    },
}

/// Whether any course meets a safety rule.
pub fn decide_safety(rule: &[u8], n: usize, work: &mut [u8], course: &mut [u16]) -> SafetyVerdict {
    let entries = match read(rule) {
        Ok(entries) => entries,
        Err(why) => return SafetyVerdict::Unread(why),
    };
    if let Some(place) = first_least(&entries) {
        return SafetyVerdict::Least(place);
    }
    if !ROOM_FOR_NODES.contains(&n) {
        return SafetyVerdict::Refused(11);
    }
    let Some(area) = work.get_mut(..8 * n) else {
        return SafetyVerdict::Refused(12);
    };
    if course.len() < n {
        return SafetyVerdict::Refused(13);
    }
    area.fill(0);
    let Some(nodes) = Graph::new(&entries).nodes(n) else {
        return SafetyVerdict::Refused(14);
    };
    let verdict = verdict(&nodes);
    if let SafetyVerdict::Met { course: found, .. } = &verdict {
        course[..found.len()].copy_from_slice(found);
    }
    verdict
}

/// Where the first least fixpoint begins, if there is one: behind all bytes of the entries before it.
fn first_least(entries: &[Command]) -> Option<usize> {
    let least = entries.iter().position(|c| matches!(c, Command::Least(_)))?;
    let bytes = |c: &Command| if matches!(c, Command::Present(_) | Command::Absent(_) | Command::Variable(_)) { 2 } else { 1 };
    Some(entries[..least].iter().map(bytes).sum())
}

fn verdict(nodes: &Nodes) -> SafetyVerdict {
    let count = nodes.order.len();
    let Some([lead, around]) = Ways::new(nodes).shortest() else {
        return SafetyVerdict::Not { nodes: count };
    };
    // the lead-in begins at the root, and the loop at the node to which that leads
    let mut at = 0;
    let mut place = |to: usize| nodes.step(std::mem::replace(&mut at, to), to).expect("a step").place;
    let course = lead.iter().chain(&around).map(|&to| place(to)).collect();
    SafetyVerdict::Met { lead_len: lead.len(), loop_len: around.len(), nodes: count, course }
}

/// Where the steps of each node lead, and where they come from. Nodes from which no run goes on for ever are left out.
struct Ways {
    /// Each target once, in the order of the least pick words that lead there. What comes behind a target is the same whichever step leads
    /// to it, so only the first of these steps is ever taken.
    ahead: Vec<Vec<usize>>,
    behind: Vec<Vec<usize>>,
}

impl Ways {
    fn new(nodes: &Nodes) -> Self {
        let mut ahead: Vec<Vec<usize>> = (0..nodes.order.len()).map(|i| nodes.targets(i)).collect();
        let mut behind = turned(&ahead);
        let lasting = lasting(&ahead, &behind);
        for lists in [&mut ahead, &mut behind] {
            for (i, list) in lists.iter_mut().enumerate() {
                list.retain(|&j| lasting[i] && lasting[j]);
            }
        }
        Ways { ahead, behind }
    }

    /// The nodes that the lead-in and then the loop come to, step by step, if there is a loop: of the fewest steps, with the fewest to it,
    /// and of these the first by pick words. Only one lead-in has the least words, so the loop is chosen behind it.
    fn shortest(&self) -> Option<[Vec<usize>; 2]> {
        let (loop_len, on_loops) = self.loops()?;
        let left = distances(&self.behind, &on_loops);
        let lead = self.first_way(0, left[0], &left);
        let start = *lead.last().expect("no step leads to the root, so no loop begins there");
        let around = self.first_way(start, loop_len, &distances(&self.behind, &[start]));
        Some([lead, around])
    }

    /// The fewest steps of any loop, and the nodes with one so short.
    fn loops(&self) -> Option<(usize, Vec<usize>)> {
        let (mut fewest, mut found) = (usize::MAX, Vec::new());
        // those found last are seldom before all loops, so a short one is known soon
        for node in (0..self.ahead.len()).rev() {
            let Some(len) = self.loop_len(node, fewest) else { continue };
            if len < fewest {
                found.clear();
            }
            fewest = len;
            found.push(node);
        }
        (!found.is_empty()).then_some((fewest, found))
    }

    /// The fewest steps from a node back to it, if these are no more than `most`.
    fn loop_len(&self, node: usize, most: usize) -> Option<usize> {
        let mut seen = vec![false; self.ahead.len()];
        let mut latest = vec![node];
        let mut len = 0;
        while !latest.is_empty() && len < most {
            len += 1;
            let mut next = Vec::new();
            for &to in latest.iter().flat_map(|&i| &self.ahead[i]) {
                if to == node {
                    return Some(len);
                }
                if !std::mem::replace(&mut seen[to], true) {
                    next.push(to);
                }
            }
            latest = next;
        }
        None
    }

    /// The first way by pick words, of so many steps, that each time comes to a node with one step fewer `left`; without the node where it
    /// begins.
    fn first_way(&self, from: usize, steps: usize, left: &[usize]) -> Vec<usize> {
        let mut node = from;
        let next = |remaining| {
            node = *self.ahead[node].iter().find(|&&to| left[to] == remaining).expect("a way");
            node
        };
        (0..steps).rev().map(next).collect()
    }
}

/// For each node those that have it in their list.
fn turned(lists: &[Vec<usize>]) -> Vec<Vec<usize>> {
    let mut turned = vec![Vec::new(); lists.len()];
    for (i, list) in lists.iter().enumerate() {
        list.iter().for_each(|&j| turned[j].push(i));
    }
    turned
}

/// From which nodes some run goes on for ever: not from one all of whose targets are such that none does.
fn lasting(ahead: &[Vec<usize>], behind: &[Vec<usize>]) -> Vec<bool> {
    let mut open: Vec<usize> = ahead.iter().map(Vec::len).collect();
    let mut ended: Vec<usize> = (0..open.len()).filter(|&i| open[i] == 0).collect();
    while let Some(j) = ended.pop() {
        for &i in &behind[j] {
            open[i] -= 1;
            if open[i] == 0 {
                ended.push(i);
            }
        }
    }
    open.into_iter().map(|targets| targets > 0).collect()
}

/// How many steps it takes along these lists to each node from the nearest of the starts, the largest number if none leads there.
fn distances(lists: &[Vec<usize>], starts: &[usize]) -> Vec<usize> {
    let mut far = vec![usize::MAX; lists.len()];
    let mut order = starts.to_vec();
    starts.iter().for_each(|&i| far[i] = 0);
    let mut at = 0;
    while at < order.len() {
        let node = order[at];
        for &to in &lists[node] {
            if far[to] == usize::MAX {
                far[to] = far[node] + 1;
                order.push(to);
            }
        }
        at += 1;
    }
    far
}
