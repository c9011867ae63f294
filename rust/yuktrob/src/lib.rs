//! Rules of tractor-guidance terminals: reading a rule, its truth on a repeating course, and the decision whether any course meets it,
//! with a short example, the same one each time; finding a rule by its number in the sheets of a dealer and of the factory; the decision
//! whether one course meets all rules of a sheet; and replacing a part of a rule. A rule is a formula of the linear-time mu-calculus in
//! bytes; `docs/FORMULAS.md` shows how to write one.
//!
//! The work is done by a library whose every function is proved to meet its contract. This crate wraps its exported functions and takes
//! their numbers apart.
//!
//! An accepted [`Rule`] is made by reading. It is decided in [`Areas`] that can be used again and again:
//!
//! ```
//! use yuktrob::{Areas, Rule, Verdict};
//! // sooner or later signal 0
//! let rule = Rule::read(&[0x09, 0x06, 0x03, 0x00, 0x08, 0x05, 0x00])?;
//! let mut areas = Areas::new(256, 300);
//! let Verdict::Met { lead_len, course, .. } = rule.decide(&mut areas)? else { panic!("some course meets it") };
//! assert_eq!((lead_len, course), (1, &[0x4001, 0x4000][..]));
//! let mut words = [0; 2];
//! assert!(rule.truth(course, lead_len, &mut words)?);
//! # Ok::<(), yuktrob::Refusal>(())
//! ```
//!
//! A place of a course has 16 bits, bit j for signal j. Signals 14 and 15 are the scale flags, [`PREVIOUS_SCALE`] and [`CURRENT_SCALE`];
//! each place has exactly one of them.
//!
//! A rule that may need more room for profiles has its graph's nodes built once, and then searched with one room after another. [`Built`]
//! keeps the nodes with their rule:
//!
//! ```
//! use yuktrob::{Rule, Verdict};
//! // infinitely often signal 0
//! let rule = Rule::read(&[0x0A, 0x07, 0x09, 0x06, 0x03, 0x00, 0x08, 0x05, 0x00, 0x08, 0x05, 0x00])?;
//! let mut built = rule.build(256)?;
//! assert_eq!(built.search(1).unwrap_err().number, 15);
//! assert!(matches!(built.search(4)?, Verdict::Met { lead_len: 1, loop_len: 1, nodes: 3, profiles: 4, .. }));
//! # Ok::<(), yuktrob::Refusal>(())
//! ```
//!
//! A safety rule, which has greatest fixpoints alone, needs room for nodes and no profiles:
//!
//! ```
//! use yuktrob::{Areas, Rule, SafetyVerdict};
//! // at every second place signal 0, and at every third signal 1
//! let rule = Rule::read(&[0x07, 0x0A, 0x07, 0x03, 0x00, 0x08, 0x08, 0x05, 0x00, 0x0A, 0x07, 0x03, 0x01, 0x08, 0x08, 0x08, 0x05, 0x00])?;
//! let mut areas = Areas::new(256, 0);
//! assert!(matches!(rule.decide_safety(&mut areas)?, SafetyVerdict::Met { lead_len: 1, loop_len: 6, nodes: 7, .. }));
//! # Ok::<(), yuktrob::Refusal>(())
//! ```
//!
//! A rule that is kept in a sheet is looked up by its number, the dealer's sheet before the factory's, and read where it stands:
//!
//! ```
//! use yuktrob::{lookup, Rule, Sheet};
//! // the factory's rules 1 and 2, and a rule 2 of the dealer's
//! let factory = [0x20, 0x01, 0x00, 0x01, 0x01, 0x20, 0x02, 0x00, 0x02, 0x03, 0x00];
//! let dealer = [0x20, 0x02, 0x00, 0x02, 0x03, 0x04];
//! let found = lookup(&dealer, &factory, 2)?;
//! assert_eq!((found.sheet, found.rule), (Sheet::Dealer, &dealer[4..]));
//! assert_eq!(Rule::read(found.rule)?.entry_count(), 1);
//! assert_eq!(lookup(&dealer, &factory, 1)?.sheet, Sheet::Factory);
//! # Ok::<(), Box<dyn std::error::Error>>(())
//! ```
//!
//! A sheet of one to eight rules is decided at once: whether one course meets them all, and which of them clash if none does:
//!
//! ```
//! use yuktrob::{Areas, SetVerdict};
//! // rule 1: always signal 0; rule 5: signal 1; rule 9: at the next place no signal 0
//! let sheet = [
//!     &[0x20, 0x01, 0x00, 0x07, 0x0A, 0x07, 0x03, 0x00, 0x08, 0x05, 0x00][..],
//!     &[0x20, 0x05, 0x00, 0x02, 0x03, 0x01],
//!     &[0x20, 0x09, 0x00, 0x03, 0x08, 0x04, 0x00],
//! ];
//! let mut areas = Areas::new(256, 300);
//! let SetVerdict::Not { clash, .. } = areas.decide_set(&sheet.concat())? else { panic!("no course meets all three") };
//! assert_eq!(clash.to_string(), "0 2");
//! let SetVerdict::Met { course, .. } = areas.decide_set(&sheet[..2].concat())? else { panic!("some course meets two") };
//! assert_eq!(course, [0x4003, 0x4001]);
//! # Ok::<(), yuktrob::SetRefusal>(())
//! ```
//!
//! A part of a rule is replaced by its entry's number, and the rule that comes of it is decided like any other:
//!
//! ```
//! use yuktrob::{Areas, Rule, Verdict};
//! // always signal 0, and sooner or later no signal 0
//! let rule = Rule::read(&[0x07, 0x0A, 0x07, 0x03, 0x00, 0x08, 0x05, 0x00, 0x09, 0x06, 0x04, 0x00, 0x08, 0x05, 0x00])?;
//! let mut areas = Areas::new(256, 300);
//! assert_eq!(rule.decide(&mut areas)?, Verdict::Not { nodes: 2, profiles: 1 });
//! // signal 1 for the absence of signal 0, which is entry 8
//! let mended = rule.edit(8, [0x03, 0x01])?;
//! assert!(matches!(mended.decide(&mut areas)?, Verdict::Met { course: &[0x4003, 0x4001], .. }));
//! # Ok::<(), Box<dyn std::error::Error>>(())
//! ```
//!
//! [`truth`], [`decide`], [`build`], [`search`] and [`decide_safety`] take the rule's bytes and areas that the caller lends, as the
//! functions of `include/yuktrob.h` do, and so does [`decide_set`] with a sheet's. [`edit`] takes the bytes of both rules, and gives the
//! entries of the one that comes of it too.

#![deny(unsafe_code, missing_docs)]

mod building;
mod decision;
mod edit;
#[allow(unsafe_code)]
mod exported;
mod refusal;
mod rule;
mod safety;
mod set;
mod sheet;
mod truth;

pub use building::{build, nodes_len, search, Built};
pub use decision::{course_len, decide, work_len, Areas, Verdict, MOST_NODES, MOST_PROFILES};
pub use edit::{edit, EditRefusal, Edited, Row, Source, Table};
pub use refusal::Refusal;
pub use rule::{Command, Entry, Rule};
pub use safety::{decide_safety, SafetyVerdict};
pub use set::{decide_set, SetRefusal, SetVerdict, Subset};
pub use sheet::{lookup, Found, NotFound, Sheet};
pub use truth::{truth, words_len, CURRENT_SCALE, MOST_PLACES, PREVIOUS_SCALE};
