use crate::{exported, nodes_len, Refusal};

/// The most nodes for which room may be asked.
pub const MOST_NODES: usize = 1024;

/// The most profiles for which room may be asked.
pub const MOST_PROFILES: usize = 4096;

/// How many bytes the work area of a decision or of a search must have.
///
/// ```
/// assert_eq!(yuktrob::work_len(256, 300), 59_648);
/// ```
pub const fn work_len(nodes: usize, profiles: usize) -> usize {
    nodes_len(nodes).saturating_add(profiles.saturating_mul(192))
}

/// How many places the course buffer of a decision or of a search must have.
///
/// ```
/// assert_eq!(yuktrob::course_len(256, 300), 556);
/// ```
pub const fn course_len(nodes: usize, profiles: usize) -> usize {
    nodes.saturating_add(profiles)
}

/// What the decision answers, and so the search.
///
/// ```
/// use yuktrob::{Areas, Rule, Verdict};
/// let mut areas = Areas::new(256, 300);
/// let told = match Rule::read(&[0x03, 0x02])?.decide(&mut areas)? {
///     Verdict::Met { lead_len, course, .. } => format!("lead-in {:04x?}, loop {:04x?}", &course[..lead_len], &course[lead_len..]),
///     Verdict::Not { .. } => "no course".to_string(),
/// };
/// assert_eq!(told, "lead-in [4004], loop [4000]");
/// # Ok::<(), yuktrob::Refusal>(())
/// ```
#[derive(Clone, Copy, Debug, PartialEq, Eq, Hash)]
pub enum Verdict<'c> {
    /// Some course meets the rule.
    Met {
        /// How many places of the course come before its loop.
        lead_len: usize,
        /// How many places the loop has.
        loop_len: usize,
        /// The paper's K: the nodes of the rule's graph.
        nodes: usize,
        /// How many profiles the graph has of runs of at most `loop_len` steps. Longer runs may have more, which are not counted.
        profiles: usize,
        /// The course, in the buffer's first places: the lead-in, then the loop. Each place has one scale flag. Where several courses are
        /// as short, [`decide`] says which one it is.
        course: &'c [u16],
    },
    /// No course meets the rule.
    Not {
        /// The paper's K: the nodes of the rule's graph.
        nodes: usize,
        /// The paper's P: all its profiles.
        profiles: usize,
    },
}

/// Whether any course meets the rule, with room for `nodes` nodes and `profiles` profiles. The work area needs
/// [`work_len`] bytes, the course buffer [`course_len`] places; they need not be cleared. Refused: 1 to 9, 11 to 15.
///
/// If some course meets the rule, room is needed for the profiles of runs of at most as many steps as the shortest good loop has, and
/// otherwise for all profiles; 15 says that there is less. More room changes neither a verdict nor its numbers nor its course.
///
/// The rule alone settles the course. The loop has as few places as any good loop, the lead-in as few as any from the root to a loop so
/// short, and of the courses left it is the first by pick words: from the first step of the lead-in to the last of the loop these are
/// compared one after another, as numbers. Bit j of a step's pick word says what the step picks at or number j, the ors being numbered from
/// 0 as they begin in the rule: 1 for the right operand, 0 for the left one and where the step does not meet that or. So left comes before
/// right, and where several ors differ the last of them decides.
///
/// ```
/// use yuktrob::{course_len, decide, work_len, Verdict};
/// let (mut work, mut course) = (vec![0; work_len(1, 1)], vec![0; course_len(1, 1)]);
/// assert_eq!(decide(&[0x02], 1, 1, &mut work, &mut course), Ok(Verdict::Not { nodes: 1, profiles: 0 }));
/// assert_eq!(decide(&[0x02], 0, 1, &mut work, &mut course).unwrap_err().number, 11);
/// ```
///
/// Signal 1 or signal 0 can be met as shortly by either, and the left one is taken:
///
/// ```
/// use yuktrob::{course_len, decide, work_len, Verdict};
/// let (mut work, mut course) = (vec![0; work_len(2, 1)], vec![0; course_len(2, 1)]);
/// let either = decide(&[0x06, 0x03, 0x01, 0x03, 0x00], 2, 1, &mut work, &mut course);
/// assert!(matches!(either, Ok(Verdict::Met { lead_len: 1, course: &[0x4002, 0x4000], .. })));
/// ```
///
/// Infinitely often signal 0 has five profiles, four of them of runs of one step, and a loop of one step is found:
///
/// ```
/// use yuktrob::{course_len, decide, work_len, Verdict};
/// let often = [0x0A, 0x07, 0x09, 0x06, 0x03, 0x00, 0x08, 0x05, 0x00, 0x08, 0x05, 0x00];
/// let (mut work, mut course) = (vec![0; work_len(3, 4)], vec![0; course_len(3, 4)]);
/// assert!(matches!(decide(&often, 3, 4, &mut work, &mut course), Ok(Verdict::Met { loop_len: 1, profiles: 4, .. })));
/// assert_eq!(decide(&often, 3, 3, &mut work, &mut course).unwrap_err().number, 15);
/// ```
pub fn decide<'c>(
    rule: &[u8],
    nodes: usize,
    profiles: usize,
    work: &mut [u8],
    course: &'c mut [u16],
) -> Result<Verdict<'c>, Refusal> {
    let told = exported::decide(rule, nodes, profiles, work, course)?;
    Ok(verdict(told, course))
}

/// The verdict that an answer carries. After MET the buffer begins with the course.
pub(crate) fn verdict(told: u64, buffer: &[u16]) -> Verdict<'_> {
    let size = |k: u32| ((told / 2) >> (13 * k) & 8191) as usize;
    let (lead_len, loop_len, nodes, profiles) = (size(0), size(1), size(2), size(3));
    if told % 2 == 0 {
        return Verdict::Not { nodes, profiles };
    }
    Verdict::Met { lead_len, loop_len, nodes, profiles, course: &buffer[..lead_len + loop_len] }
}

/// A work area and a course buffer with room for so many nodes and profiles, for any number of decisions. For safety rules room for nodes
/// is enough.
///
/// ```
/// use yuktrob::{Areas, Rule};
/// let mut areas = Areas::new(256, 300);
/// for rule in [&[0x01][..], &[0x02], &[0x03, 0x00]] {
///     assert!(Rule::read(rule)?.decide(&mut areas).is_ok());
/// }
/// # Ok::<(), yuktrob::Refusal>(())
/// ```
#[derive(Clone, Debug)]
pub struct Areas {
    pub(crate) nodes: usize,
    pub(crate) profiles: usize,
    pub(crate) work: Vec<u8>,
    pub(crate) course: Vec<u16>,
}

impl Areas {
    /// Areas for so many nodes and profiles. A room that no decision takes (below 1, above [`MOST_NODES`] or [`MOST_PROFILES`]) is kept as
    /// it is, and each decision in these areas is refused with 11; that of a safety rule only for the room for nodes.
    ///
    /// ```
    /// let mut none = yuktrob::Areas::new(0, 300);
    /// assert_eq!(yuktrob::Rule::read(&[0x01])?.decide(&mut none).unwrap_err().number, 11);
    /// # Ok::<(), yuktrob::Refusal>(())
    /// ```
    pub fn new(nodes: usize, profiles: usize) -> Areas {
        let mut areas = Areas { nodes, profiles, work: Vec::new(), course: Vec::new() };
        areas.make_room(profiles);
        areas
    }

    /// From now on, room for so many profiles. What the areas hold stays, and no area becomes shorter.
    pub(crate) fn make_room(&mut self, profiles: usize) {
        let (n, m) = (self.nodes.min(MOST_NODES), profiles.min(MOST_PROFILES));
        self.profiles = profiles;
        self.work.resize(self.work.len().max(work_len(n, m)), 0);
        self.course.resize(self.course.len().max(course_len(n, m)), 0);
    }
}

pub(crate) fn decide_in<'a>(rule: &[u8], areas: &'a mut Areas) -> Result<Verdict<'a>, Refusal> {
    decide(rule, areas.nodes, areas.profiles, &mut areas.work, &mut areas.course)
}
