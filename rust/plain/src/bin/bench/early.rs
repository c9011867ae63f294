//! Decisions of rules with a short good loop and many profiles, most of which are of longer runs.

use crate::decisions::{decision, Areas};
use crate::shapes::{each, eventually, infinitely_often, until, written};
use crate::timing::{beside, head};
use yuktrob::{Verdict, MOST_NODES, MOST_PROFILES};
use yuktrob_plain::decision::has_more_profiles;
use yuktrob_plain::reading::read;

/// Found among random rules: more profiles than there is ever room for, and few of runs as short as a good loop. In the last three each
/// good loop has several steps.
const FOUND: [&str; 8] = [
    "0a0a08070a0809080706030203000708060605020109030206050003010501",
    "0a080605000a08090a0708080a070501060a08050005040502",
    "0a090a060808060609080a070805000605030906090505040203010500080502",
    "07060a07060a080809090808060500080605020704000807090805000502040008050006060300040007030003000300",
    "0a0608060400070500080806080400070301050006080500070708050006080a0a0a0a080605020705010a060806080a050504010301080500080500",
    "070a07030007080400080805000a060607040103010301060a0708090908080807050201080806080a08080502070a0207050004000603010400",
    "070a0703020708040208080805000a0808080a0707050103000607050108080a0a080906080a05020402070501080400",
    "070a070301070804010808080805000a060a080a0400080a0807060501080808070805010500090603000301",
];

fn and(a: &[u8], b: &[u8]) -> Vec<u8> {
    [&[7], a, b].concat()
}

fn rules() -> Vec<(&'static str, Vec<u8>)> {
    let often = |n: u8| each(n, 7, |j| infinitely_often(&[3, j]));
    let (never_stays, later) = (and(&often(1), &infinitely_often(&[4, 0])), until(&[3, 4], &[3, 5]));
    let mut rules = vec![
        ("G F of 3 signals, all", often(3)),
        ("G F of 3 signals, all, and a U", and(&often(3), &later)),
        ("G F of 2 signals and F of 2 more, all", and(&often(2), &and(&eventually(&[3, 2]), &eventually(&[3, 3])))),
        ("G F of a signal and of its absence, and a U", and(&never_stays, &later)),
    ];
    rules.extend(FOUND.map(|hex| ("found", written(hex))));
    rules
}

/// What the proved library answers with the largest room.
pub fn outcome(areas: &mut Areas, rule: &[u8]) -> String {
    match yuktrob::decide(rule, MOST_NODES, MOST_PROFILES, &mut areas.work, &mut areas.course) {
        Ok(Verdict::Met { lead_len, loop_len, nodes, profiles, .. }) => format!("MET {lead_len} {loop_len} {nodes} {profiles}"),
        Ok(Verdict::Not { nodes, profiles }) => format!("NOT {nodes} {profiles}"),
        Err(why) => format!("refused {}", why.number),
    }
}

/// How many profiles a rule has, up to one more than there is ever room for.
fn all_profiles(rule: &[u8]) -> String {
    let entries = read(rule).expect("a rule");
    let (mut least, mut most) = (0, MOST_PROFILES + 1);
    while least < most {
        let middle = (least + most) / 2;
        if has_more_profiles(&entries, MOST_NODES, middle) {
            least = middle + 1;
        } else {
            most = middle;
        }
    }
    if least > MOST_PROFILES { format!("above {MOST_PROFILES}") } else { least.to_string() }
}

pub fn table(areas: &mut Areas) {
    let title = "Decision, N = 1,024, M = 4,096: rules with a short good loop and many profiles";
    head(title, &["input", "all profiles", "outcome", "proved, µs", "plain Rust, µs", "ratio"]);
    for (name, rule) in rules() {
        let (all, outcome) = (all_profiles(&rule), outcome(areas, &rule));
        let (ours, theirs) = decision(areas, &rule, MOST_NODES, MOST_PROFILES);
        println!("| {name} | {all} | {outcome} | {} |", beside(ours, theirs));
    }
}

#[cfg(test)]
mod tests {
    use super::*;
    use yuktrob_plain::decision::effort;

    #[test]
    fn a_good_loop_needs_fewer_profiles_than_there_are() {
        for (name, rule) in rules() {
            let entries = read(&rule).expect("a rule");
            let effort = effort(&entries, MOST_NODES, MOST_PROFILES).expect("enough room");
            assert!(effort.before.is_some() && has_more_profiles(&entries, MOST_NODES, effort.profiles), "{name}");
            assert!(name != "found" || has_more_profiles(&entries, MOST_NODES, MOST_PROFILES), "{rule:02x?}");
        }
    }
}
