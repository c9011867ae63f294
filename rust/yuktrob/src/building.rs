use crate::{decision, exported, Areas, Refusal, Rule, Verdict};

/// How many bytes of a work area the nodes take, where there is room for so many: what [`build`] asks for and a search keeps.
///
/// ```
/// assert_eq!(yuktrob::nodes_len(256), 2048);
/// ```
pub const fn nodes_len(nodes: usize) -> usize {
    nodes.saturating_mul(8)
}

/// Builds the nodes of a rule's graph, with room for `nodes` of them, and answers how many there are: K. [`search`] then goes on from
/// them, with one room for profiles or with several. The work area needs [`nodes_len`] bytes. Refused: 1 to 9, 11, 12, 14.
///
/// Afterwards these bytes have the nodes, eight bytes each, the lowest first, bit e for entry e, and zeros behind the last. The root comes
/// first; the others stand in the order in which they are first come to, breadth first, the steps of a node by rising pick word
/// ([`decide`](crate::decide()) says what that is). After 14 these bytes are zero, and after any other refusal as they were. What lies
/// behind them always is as it was.
///
/// ```
/// use yuktrob::{build, nodes_len};
/// // signal 0 at the next place: the root, what the next is about, and the empty node
/// let mut work = [7; nodes_len(4) + 1];
/// assert_eq!(build(&[0x08, 0x03, 0x00], 4, &mut work), Ok(3));
/// assert_eq!(work[..24], [1, 0, 0, 0, 0, 0, 0, 0, 2, 0, 0, 0, 0, 0, 0, 0, 0, 0, 0, 0, 0, 0, 0, 0]);
/// assert_eq!(work[24..], [0, 0, 0, 0, 0, 0, 0, 0, 7]);
/// assert_eq!(build(&[0x08, 0x03, 0x00], 2, &mut work).unwrap_err().number, 14);
/// ```
pub fn build(rule: &[u8], nodes: usize, work: &mut [u8]) -> Result<usize, Refusal> {
    exported::build(rule, nodes, work).map(|count| count as usize)
}

/// The decision over nodes that are built: whether any course meets the rule, with room for `profiles` profiles. `built` is what [`build`]
/// answered with the same rule and `nodes`, and the work area begins with the [`nodes_len`] bytes that it left; behind them it may hold
/// anything. It needs [`work_len`](crate::work_len) bytes, the course buffer [`course_len`](crate::course_len) places. Refused: 1 to 9, 11
/// to 13, 36, 15, asked in this order.
///
/// 36 says that `built` or these bytes are not the rule's; a rule with more than `nodes` nodes has none that are. Otherwise the verdict,
/// its numbers and its course are those of [`decide`](crate::decide()) with the same room, and so is 15. After a verdict or 15 the nodes
/// are as they were, for the next search, and the bytes behind them, up to [`work_len`](crate::work_len), are zero; after any other
/// refusal nothing has changed.
///
/// ```
/// use yuktrob::{build, course_len, search, work_len, Verdict};
/// let often = [0x0A, 0x07, 0x09, 0x06, 0x03, 0x00, 0x08, 0x05, 0x00, 0x08, 0x05, 0x00];
/// let (mut work, mut course) = (vec![0; work_len(3, 4)], vec![0; course_len(3, 4)]);
/// let built = build(&often, 3, &mut work)?;
/// assert_eq!(search(&often, built, 3, 3, &mut work, &mut course).unwrap_err().number, 15);
/// assert!(matches!(search(&often, built, 3, 4, &mut work, &mut course), Ok(Verdict::Met { loop_len: 1, profiles: 4, .. })));
/// // not the nodes of another rule
/// assert_eq!(search(&[0x01], built, 3, 4, &mut work, &mut course).unwrap_err().number, 36);
/// # Ok::<(), yuktrob::Refusal>(())
/// ```
pub fn search<'c>(
    rule: &[u8],
    built: usize,
    nodes: usize,
    profiles: usize,
    work: &mut [u8],
    course: &'c mut [u16],
) -> Result<Verdict<'c>, Refusal> {
    let told = exported::search(rule, built, nodes, profiles, work, course)?;
    Ok(decision::verdict(told, course))
}

/// The nodes of a rule's graph, made by [`Rule::build`] and searched with as much room for profiles as it takes. They stay with their rule,
/// in an area that nobody else writes to, so no search is refused with 36.
///
/// ```
/// use yuktrob::{Rule, Verdict};
/// // infinitely often signal 0, and infinitely often signal 1
/// let often = |signal| [0x0A, 0x07, 0x09, 0x06, 0x03, signal, 0x08, 0x05, 0x00, 0x08, 0x05, 0x00];
/// let rule = Rule::read(&[&[0x07][..], &often(0), &often(1)].concat())?;
/// let mut built = rule.build(256)?;
/// assert_eq!(built.search(4).unwrap_err().number, 15);
/// let Verdict::Met { lead_len, course, .. } = built.search(40)? else { panic!("some course meets it") };
/// assert_eq!((lead_len, course), (1, &[0x4003, 0x4003][..]));
/// # Ok::<(), yuktrob::Refusal>(())
/// ```
#[derive(Clone, Debug)]
pub struct Built<'r> {
    rule: &'r Rule,
    count: usize,
    /// With room for no profiles until there is a search.
    areas: Areas,
}

impl<'r> Built<'r> {
    pub(crate) fn new(rule: &'r Rule, nodes: usize) -> Result<Built<'r>, Refusal> {
        let mut areas = Areas::new(nodes, 0);
        let count = build(rule.as_bytes(), nodes, &mut areas.work)?;
        Ok(Built { rule, count, areas })
    }

    /// The paper's K: how many nodes there are.
    ///
    /// ```
    /// let rule = yuktrob::Rule::read(&[0x08, 0x03, 0x00])?;
    /// assert_eq!(rule.build(256)?.count(), 3);
    /// # Ok::<(), yuktrob::Refusal>(())
    /// ```
    pub fn count(&self) -> usize {
        self.count
    }

    /// The nodes, bit e for entry e, the root first, in the order that [`build`] has.
    ///
    /// ```
    /// // signal 0, or at the next place signal 1: entry 3 is left for that place, or nothing
    /// let rule = yuktrob::Rule::read(&[0x06, 0x03, 0x00, 0x08, 0x03, 0x01])?;
    /// assert_eq!(rule.build(256)?.words().collect::<Vec<_>>(), [0b0001, 0b0000, 0b1000]);
    /// # Ok::<(), yuktrob::Refusal>(())
    /// ```
    pub fn words(&self) -> impl Iterator<Item = u64> + '_ {
        let (words, _) = self.areas.work[..nodes_len(self.count)].as_chunks();
        words.iter().map(|&word| u64::from_le_bytes(word))
    }

    /// Whether any course meets the rule, as [`search`] has it, with room for `profiles` profiles. Each search may have another room.
    /// Refused: 11, 15.
    ///
    /// ```
    /// let rule = yuktrob::Rule::read(&[0x01])?;
    /// let mut built = rule.build(2)?;
    /// assert!(built.search(1).is_ok());
    /// assert_eq!(built.search(0).unwrap_err().number, 11);
    /// assert_eq!(built.search(usize::MAX).unwrap_err().number, 11);
    /// # Ok::<(), yuktrob::Refusal>(())
    /// ```
    pub fn search(&mut self, profiles: usize) -> Result<Verdict<'_>, Refusal> {
        self.areas.make_room(profiles);
        let Areas { nodes, work, course, .. } = &mut self.areas;
        search(self.rule.as_bytes(), self.count, *nodes, profiles, work, course)
    }
}
