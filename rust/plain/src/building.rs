//! The decision in two: building leaves the nodes of a rule in a work area, and a search finds them there and goes on, again and again if
//! need be. Both write into the areas lent, just as they are to.

use crate::decision::{refused_room, Graph, Nodes, Verdict, ROOM_FOR_NODES};
use crate::reading::{read, Unreadable};

/// What building answers.
#[derive(Clone, Copy, Debug, PartialEq, Eq)]
pub enum Building {
    Unread(Unreadable),
    Refused(u8),
    /// How many nodes there are.
    Built(usize),
}

/// Leaves the nodes in the work area's first 8 n bytes.
pub fn build(rule: &[u8], n: usize, work: &mut [u8]) -> Building {
    let entries = match read(rule) {
        Ok(entries) => entries,
        Err(why) => return Building::Unread(why),
    };
    if !ROOM_FOR_NODES.contains(&n) {
        return Building::Refused(11);
    }
    let Some(area) = work.get_mut(..8 * n) else {
        return Building::Refused(12);
    };
    let nodes = Graph::new(&entries).nodes(n);
    area.copy_from_slice(&nodes.as_ref().map_or(vec![0; 8 * n], |nodes| laid_out(nodes, n)));
    nodes.map_or(Building::Refused(14), |nodes| Building::Built(nodes.order.len()))
}

/// The decision over `built` nodes that are in the work area.
pub fn search(rule: &[u8], built: usize, n: usize, m: usize, work: &mut [u8], course: &mut [u16]) -> Verdict {
    let entries = match read(rule) {
        Ok(entries) => entries,
        Err(why) => return Verdict::Unread(why),
    };
    if let Some(number) = refused_room(n, m, work.len(), course.len()) {
        return Verdict::Refused(number);
    }
    let graph = Graph::new(&entries);
    let (area, behind) = work.split_at_mut(8 * n);
    let Some(nodes) = graph.nodes(n).filter(|nodes| nodes.order.len() == built && area == laid_out(nodes, n)) else {
        return Verdict::Refused(36);
    };
    let verdict = graph.verdict(&nodes, m);
    behind[..192 * m].fill(0);
    if let Verdict::Met { course: found, .. } = &verdict {
        course[..found.len()].copy_from_slice(found);
    }
    verdict
}

/// The nodes as they stand in an area with room for n: eight bytes each, the lowest first, and zeros behind the last.
fn laid_out(nodes: &Nodes, n: usize) -> Vec<u8> {
    let mut bytes = nodes.order.iter().flat_map(|node| node.to_le_bytes()).collect::<Vec<u8>>();
    bytes.resize(8 * n, 0);
    bytes
}
