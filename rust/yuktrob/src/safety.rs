use crate::{decision, exported, Areas, Refusal, Verdict};

/// What the decision of a safety rule answers.
///
/// ```
/// use yuktrob::{Areas, Rule, SafetyVerdict};
/// let mut areas = Areas::new(256, 0);
/// let told = match Rule::read(&[0x03, 0x02])?.decide_safety(&mut areas)? {
///     SafetyVerdict::Met { lead_len, course, .. } => format!("lead-in {:04x?}, loop {:04x?}", &course[..lead_len], &course[lead_len..]),
///     SafetyVerdict::Not { .. } => "no course".to_string(),
/// };
/// assert_eq!(told, "lead-in [4004], loop [4000]");
/// # Ok::<(), yuktrob::Refusal>(())
/// ```
#[derive(Clone, Copy, Debug, PartialEq, Eq, Hash)]
pub enum SafetyVerdict<'c> {
    /// Some course meets the rule.
    Met {
        /// How many places of the course come before its loop.
        lead_len: usize,
        /// How many places the loop has. With those before it they are at most `nodes`.
        loop_len: usize,
        /// The paper's K: the nodes of the rule's graph.
        nodes: usize,
        /// The course, in the buffer's first places: the lead-in, then the loop. Each place has one scale flag. Where several courses are
        /// as short, [`decide`](crate::decide()) says which one it is.
        course: &'c [u16],
    },
    /// No course meets the rule.
    Not {
        /// The paper's K: the nodes of the rule's graph.
        nodes: usize,
    },
}

/// Whether any course meets a safety rule, which is one with greatest fixpoints alone, with room for `nodes` nodes. Such a rule has no bad
/// loop; so it takes no profiles, and there is no 15. The work area needs [`nodes_len`](crate::nodes_len) bytes, the course buffer `nodes`
/// places; they need not be cleared. Refused: 1 to 9, 43, 11 to 14, asked in this order.
///
/// 43 says that the rule has a least fixpoint, and has the place of the first one's byte 09. Otherwise the verdict, its lengths, its nodes
/// and its course are those of [`decide`](crate::decide()) with as many nodes, wherever that has room for the profiles that it needs. More
/// room changes none of them. After a verdict or 14 the [`nodes_len`](crate::nodes_len) bytes are zero; after any other refusal the work
/// area is as it was. The course buffer is written by a yes alone, as far as the course goes. The call takes some 150,000 bytes of the
/// stack.
///
/// ```
/// use yuktrob::{decide_safety, nodes_len, SafetyVerdict};
/// // whenever signal 0, then at the next place signal 1
/// let whenever = [0x0A, 0x07, 0x06, 0x04, 0x00, 0x08, 0x03, 0x01, 0x08, 0x05, 0x00];
/// let (mut work, mut course) = (vec![0; nodes_len(3)], vec![0; 3]);
/// let verdict = decide_safety(&whenever, 3, &mut work, &mut course);
/// assert_eq!(verdict, Ok(SafetyVerdict::Met { lead_len: 1, loop_len: 1, nodes: 3, course: &[0x4000, 0x4000] }));
/// assert_eq!(decide_safety(&whenever, 2, &mut work, &mut course).unwrap_err().number, 14);
/// // sooner or later signal 0
/// let refusal = decide_safety(&[0x09, 0x06, 0x03, 0x00, 0x08, 0x05, 0x00], 3, &mut work, &mut course).unwrap_err();
/// assert_eq!((refusal.number, refusal.place), (43, Some(0)));
/// ```
pub fn decide_safety<'c>(rule: &[u8], nodes: usize, work: &mut [u8], course: &'c mut [u16]) -> Result<SafetyVerdict<'c>, Refusal> {
    let told = exported::decide_safety(rule, nodes, work, course)?;
    Ok(match decision::verdict(told, course) {
        Verdict::Met { lead_len, loop_len, nodes, course, .. } => SafetyVerdict::Met { lead_len, loop_len, nodes, course },
        Verdict::Not { nodes, .. } => SafetyVerdict::Not { nodes },
    })
}

pub(crate) fn decide_safety_in<'a>(rule: &[u8], areas: &'a mut Areas) -> Result<SafetyVerdict<'a>, Refusal> {
    decide_safety(rule, areas.nodes, &mut areas.work, &mut areas.course)
}
