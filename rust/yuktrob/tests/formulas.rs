//! Every line of the ```rules blocks of docs/FORMULAS.md, run; its words for each refusal, held beside the crate's; and a rule that is
//! searched with more and more room.

use yuktrob::{build, course_len, decide, decide_safety, decide_set, edit, lookup, nodes_len, search, truth, work_len};
use yuktrob::{Areas, Edited, Found, NotFound, Refusal, Rule, SafetyVerdict, SetRefusal, SetVerdict, Sheet, Source, Verdict};
use yuktrob::{MOST_NODES, PREVIOUS_SCALE};

fn document() -> String {
    std::fs::read_to_string(concat!(env!("CARGO_MANIFEST_DIR"), "/../../docs/FORMULAS.md")).expect("docs/FORMULAS.md")
}

fn bytes(text: &str) -> Vec<u8> {
    text.split_whitespace().map(|b| u8::from_str_radix(b, 16).expect("a byte in hex")).collect()
}

fn places(text: &str) -> Vec<u16> {
    text.split_whitespace().map(|p| u16::from_str_radix(p, 16).expect("a place in hex")).collect()
}

fn refused(why: Refusal) -> String {
    let place = why.place.map_or(String::new(), |place| format!(" at {place}"));
    let fixpoint = why.fixpoint.map_or(String::new(), |fixpoint| format!(" from {fixpoint}"));
    format!("REFUSED {}{place}{fixpoint}", why.number)
}

/// `LEAD (LOOP)`, or a number of places that are all 4000.
fn course(text: &str) -> (Vec<u16>, usize) {
    if let Some(n) = text.strip_suffix(" places") {
        return (vec![PREVIOUS_SCALE; n.parse().expect("a number of places")], 0);
    }
    let (lead, around) = text.strip_suffix(')').and_then(|c| c.split_once('(')).expect("a loop in brackets");
    let lead = places(lead);
    ([&lead[..], &places(around)].concat(), lead.len())
}

/// A course and perhaps `words N`.
fn told(rule: &[u8], text: &str) -> String {
    let (text, room) = match text.split_once(" words ") {
        Some((text, room)) => (text, Some(room.parse::<usize>().expect("a number of words"))),
        None => (text, None),
    };
    let (all, lead_len) = course(text);
    let mut words = vec![0; room.unwrap_or(all.len())];
    match truth(rule, &all, lead_len, &mut words) {
        Ok(b) => format!("{b}: {}", words.iter().map(|w| format!("{w:x}")).collect::<Vec<_>>().join(" ")),
        Err(why) => refused(why),
    }
}

/// `N 1 M 1 work 200 buffer 1`: names, and behind each its numbers.
struct With<'a>(&'a str);

impl With<'_> {
    fn numbers(&self, name: &str) -> Vec<usize> {
        let mut words = self.0.split_whitespace().skip_while(|word| *word != name);
        let named = words.next().is_some();
        let numbers: Vec<usize> = words.map_while(|word| word.parse().ok()).collect();
        assert_eq!(named, !numbers.is_empty(), "a number behind {name}");
        numbers
    }

    fn number(&self, name: &str) -> Option<usize> {
        self.numbers(name).first().copied()
    }

    /// The room for nodes.
    fn nodes(&self) -> usize {
        self.number("N").unwrap_or(256)
    }

    /// The rooms for profiles, one or more.
    fn profiles(&self) -> Vec<usize> {
        let told = self.numbers("M");
        if told.is_empty() { vec![300] } else { told }
    }

    /// A work area and a course buffer as asked for with the most of these profiles, if not said.
    fn areas(&self) -> (Vec<u8>, Vec<u16>) {
        let (n, m) = (self.nodes(), self.profiles().into_iter().max().expect("a room"));
        (vec![0; self.number("work").unwrap_or(work_len(n, m))], vec![0; self.number("buffer").unwrap_or(course_len(n, m))])
    }
}

fn hex(places: &[u16]) -> String {
    places.iter().map(|place| format!("{place:04x}")).collect::<Vec<_>>().join(" ")
}

fn outcome(answer: Result<Verdict, Refusal>) -> String {
    match answer {
        Ok(Verdict::Met { lead_len, loop_len, nodes, profiles, course }) => {
            let (lead, around) = course.split_at(lead_len);
            format!("MET {lead_len} {loop_len} {nodes} {profiles}: {} ({})", hex(lead), hex(around))
        }
        Ok(Verdict::Not { nodes, profiles }) => format!("NOT {nodes} {profiles}"),
        Err(why) => refused(why),
    }
}

fn decided(rule: &[u8], with: With) -> String {
    let (mut work, mut buffer) = with.areas();
    outcome(decide(rule, with.nodes(), with.profiles()[0], &mut work, &mut buffer))
}

/// K and the nodes.
fn built(rule: &[u8], with: With) -> String {
    let mut work = vec![0; with.number("work").unwrap_or(nodes_len(with.nodes()))];
    match build(rule, with.nodes(), &mut work) {
        Ok(count) => {
            let words = work[..nodes_len(count)].as_chunks().0.iter().map(|&word| format!("{:x}", u64::from_le_bytes(word)));
            format!("BUILT {count}: {}", words.collect::<Vec<_>>().join(" "))
        }
        Err(why) => refused(why),
    }
}

/// Builds the nodes of a rule once and searches them for a rule with each M in turn; K, if it is said, is handed on for what was built.
fn searched(rule: &[u8], over: &[u8], with: With) -> String {
    let (mut work, mut buffer) = with.areas();
    let count = match build(over, with.nodes(), &mut work) {
        Ok(count) => with.number("K").unwrap_or(count),
        Err(why) => return refused(why),
    };
    let again = |m: usize| outcome(search(rule, count, with.nodes(), m, &mut work, &mut buffer));
    with.profiles().into_iter().map(again).collect::<Vec<_>>().join(", ")
}

/// The decision of a safety rule. What 12 and 13 ask is lent where 11 allows N, if `lent WORK COURSE` does not say otherwise.
fn decided_safely(rule: &[u8], nodes: usize, lent: With) -> String {
    let (work, buffer) = match lent.numbers("lent")[..] {
        [work, buffer] => (work, buffer),
        _ if nodes <= MOST_NODES => (nodes_len(nodes), nodes),
        _ => (0, 0),
    };
    match decide_safety(rule, nodes, &mut vec![0; work], &mut vec![0; buffer]) {
        Ok(SafetyVerdict::Met { lead_len, loop_len, nodes, course }) => format!("MET {lead_len} {loop_len} {nodes} {}", hex(course)),
        Ok(SafetyVerdict::Not { nodes }) => format!("NOT {nodes}"),
        Err(why) => refused(why),
    }
}

/// The bytes of a sheet or a rule; a dash stands for none.
fn bytes_or_none(text: &str) -> Vec<u8> {
    if text == "-" { Vec::new() } else { bytes(text) }
}

/// The lookup of a rule in two sheets.
fn looked_up(sheets: [&str; 2], number: u16) -> String {
    let name = |sheet| if sheet == Sheet::Dealer { "dealer" } else { "factory" };
    let [dealer, factory] = sheets.map(bytes_or_none);
    match lookup(&dealer, &factory, number) {
        Ok(Found { sheet, start, rule }) => {
            let digits: String = rule.iter().map(|byte| format!("{byte:02x}")).collect();
            format!("FOUND {} {start} {}", name(sheet), if rule.is_empty() { "-" } else { &digits })
        }
        Err(why @ NotFound::Damaged { sheet, place }) => format!("REFUSED {} {} at {place}", why.number(), name(sheet)),
        Err(why @ NotFound::Missing) => format!("REFUSED {}", why.number()),
    }
}

/// All rules of a sheet, with room `N M`, in areas that it asks for.
fn decided_at_once(sheet: &[u8], room: &str) -> String {
    let [n, m] = room.split(' ').map(|number| number.parse().expect("a room")).collect::<Vec<usize>>()[..] else { panic!("{room}") };
    match Areas::new(n, m).decide_set(sheet) {
        Ok(SetVerdict::Met { lead_len, loop_len, nodes, profiles, course }) => {
            format!("MET {lead_len} {loop_len} {nodes} {profiles} {}", hex(course))
        }
        Ok(SetVerdict::Not { nodes, profiles, clash }) => format!("NOT {nodes} {profiles} {clash}"),
        Err(SetRefusal::Damaged { place }) => format!("REFUSED 30 at {place}"),
        Err(SetRefusal::Unread { position, refusal }) => format!("{} of {position}", refused(refusal)),
        Err(SetRefusal::Undecided { tried }) => format!("REFUSED 35 {tried}"),
        Err(why) => format!("REFUSED {}", why.number()),
    }
}

/// A rule in place of an entry of another: the bytes and the lengths of all entries.
fn edited(old: &[u8], e: usize, new: &[u8]) -> String {
    match edit(old, e, new) {
        Ok(Edited { rule, table }) => {
            let digits: String = rule.as_bytes().iter().map(|byte| format!("{byte:02x}")).collect();
            table.rows().fold(format!("EDITED {digits} lengths"), |told, row| format!("{told} {}", row.length))
        }
        Err(why) => {
            let source = why.source.map_or("", |source| match source {
                Source::Old => " of old",
                Source::New => " of new",
                Source::Spliced => " of spliced",
            });
            format!("{}{source}", refused(why.refusal))
        }
    }
}

/// What a line comes to: `RULE on COURSE`, `RULE built`, `RULE searched`, `RULE searched over RULE`, or a rule alone, which is decided. All
/// but the first may be followed by ` with ` and numbers. Or, as the test runner has them, `safety | RULE | N`, and perhaps
/// ` | lent WORK COURSE`; `sheet | DEALER | FACTORY | NUMBER`; `set | SHEET | N M`; and `edit | OLD | ENTRY | NEW`.
fn found(input: &str) -> String {
    match input.split(" | ").collect::<Vec<_>>()[..] {
        ["safety", rule, nodes, ref lent @ ..] => {
            return decided_safely(&bytes(rule), nodes.parse().expect("a room for nodes"), With(lent.first().unwrap_or(&"")));
        }
        ["sheet", dealer, factory, number] => return looked_up([dealer, factory], number.parse().expect("a rule's number")),
        ["set", sheet, room] => return decided_at_once(&bytes_or_none(sheet), room),
        ["edit", old, e, new] => return edited(&bytes_or_none(old), e.parse().expect("an entry"), &bytes_or_none(new)),
        _ => {}
    }
    let (input, with) = input.split_once(" with ").unwrap_or((input, ""));
    if let Some((rule, course)) = input.split_once(" on ") {
        told(&bytes(rule), course)
    } else if let Some(rule) = input.strip_suffix(" built") {
        built(&bytes(rule), With(with))
    } else if let Some((rule, over)) = input.split_once(" searched") {
        searched(&bytes(rule), &bytes(over.strip_prefix(" over ").unwrap_or(rule)), With(with))
    } else {
        decided(&bytes(input), With(with))
    }
}

#[test]
fn every_line_of_the_document() {
    let mut inside = false;
    let (mut lines, mut sheets, mut sets, mut edits) = (0, 0, 0, 0);
    for line in document().lines() {
        match line {
            "```rules" => inside = true,
            "```" => inside = false,
            _ if inside => {
                let (input, expected) = line.split_once(" -> ").or(line.rsplit_once(" | ")).expect("an arrow or a bar");
                assert_eq!(found(input), expected, "{input}");
                lines += 1;
                sheets += input.starts_with("sheet | ") as u32;
                sets += input.starts_with("set | ") as u32;
                edits += input.starts_with("edit | ") as u32;
            }
            _ => {}
        }
    }
    let told = format!("only {lines} lines were found, {sheets} with two sheets, {sets} with a set, {edits} with an edit");
    assert!(lines >= 30 && sheets >= 10 && sets >= 10 && edits >= 10, "{told}");
}

/// The trainers' use: nodes that are built once are searched with more and more room, lent or with their rule.
#[test]
fn searching_again_with_more_room() {
    // changes, announcements and headings each come infinitely often, and no two of them at one place
    let apart = "07 06 04 00 04 01 07 06 04 01 04 02 06 04 00 04 02";
    let often = |signal: u8| format!("0A 07 09 06 03 {signal:02X} 08 05 00 08 05 00");
    let text = format!("07 0A 07 {apart} 08 05 00 07 {} 07 {} {}", often(0), often(1), often(2));
    let outcomes = ["REFUSED 15", "REFUSED 15", "MET 1 3 5 55: 4004 (4002 4001 4004)"];
    assert_eq!(found(&format!("{text} searched with M 4 40 400")), outcomes.join(", "));
    let rule = Rule::read(&bytes(&text)).expect("a rule");
    let mut built = rule.build(256).expect("enough room");
    assert_eq!([4, 40, 400].map(|m| outcome(built.search(m))), outcomes);
}

/// An input of the document for each of its refusals.
fn refusal(number: u8) -> Refusal {
    let (mut work, mut buffer) = (vec![0; work_len(256, 300)], vec![0; course_len(256, 300)]);
    let often = [10, 7, 9, 6, 3, 0, 8, 5, 0, 8, 5, 0];
    let unread: [&[u8]; 9] = [&[6, 1], &[11], &[7; 49], &[8; 13], &[3], &[3, 16], &[5, 0], &[8, 9, 5, 0], &[1, 1]];
    match number {
        1..=9 => decide(unread[number as usize - 1], 256, 300, &mut work, &mut buffer).unwrap_err(),
        11 => decide(&[1], 0, 300, &mut work, &mut buffer).unwrap_err(),
        12 => decide(&[1], 1, 1, &mut work[..199], &mut buffer).unwrap_err(),
        13 => decide(&[1], 1, 1, &mut work, &mut buffer[..1]).unwrap_err(),
        14 => decide(&[1], 1, 300, &mut work, &mut buffer).unwrap_err(),
        15 => decide(&often, 256, 3, &mut work, &mut buffer).unwrap_err(),
        16 => truth(&[1], &[PREVIOUS_SCALE; 2], 2, &mut [0; 2]).unwrap_err(),
        17 => truth(&[1], &[PREVIOUS_SCALE; 8193], 0, &mut [0; 8193]).unwrap_err(),
        18 => truth(&[1], &[PREVIOUS_SCALE; 2], 1, &mut [0]).unwrap_err(),
        19 => truth(&[1], &[0], 0, &mut [0]).unwrap_err(),
        36 => search(&often, 3, 256, 300, &mut work, &mut buffer).unwrap_err(),
        37 => edit(&[1], 1, &[1]).unwrap_err().refusal,
        43 => decide_safety(&often, 256, &mut work, &mut buffer).unwrap_err(),
        _ => panic!("the document has a refusal {number} that no input is known for"),
    }
}

/// The same for the refusals of a lookup.
fn not_found(number: u8) -> Option<NotFound> {
    match number {
        30 => lookup(&[0x20, 7, 0, 2, 3], &[], 7).err(),
        31 => lookup(&[], &[], 7).err(),
        _ => None,
    }
}

/// The same for the refusals of a set alone: 34, and 35 for one rule, with room for one node.
fn undecided(number: u8) -> Option<SetRefusal> {
    let sheet: &[u8] = match number {
        34 => &[],
        35 => &[0x20, 7, 0, 1, 1],
        _ => return None,
    };
    decide_set(sheet, 1, 1, &mut [0; work_len(1, 1)], &mut [0; course_len(1, 1)]).err()
}

#[test]
fn every_refusal_has_the_words_of_the_document() {
    let document = document();
    let row = |line: &str| {
        let (number, words) = line.strip_prefix("| ")?.strip_suffix(" |")?.split_once(" | ")?;
        Some((number.parse::<u8>().ok()?, words.to_string()))
    };
    let rows: Vec<(u8, String)> = document.lines().skip_while(|line| *line != "## Refusals").filter_map(row).collect();
    assert_eq!(rows.len(), 25);
    for (number, words) in rows {
        if let Some(why) = not_found(number) {
            let place = if number == 30 { " at byte 5 of the dealer's sheet" } else { "" };
            assert_eq!((why.number(), why.to_string()), (number, format!("refused {number}{place}: {words}")));
            continue;
        }
        if let Some(why) = undecided(number) {
            let rules = if number == 35 { " for the rules at 0" } else { "" };
            assert_eq!((why.number(), why.to_string()), (number, format!("refused {number}{rules}: {words}")));
            continue;
        }
        let why = refusal(number);
        let place = why.place.map_or(String::new(), |place| format!(" at byte {place}"));
        let fixpoint = why.fixpoint.map_or(String::new(), |fixpoint| format!(", for the fixpoint at byte {fixpoint}"));
        assert_eq!((why.number, why.place.is_some(), why.fixpoint.is_some()), (number, number <= 9 || number == 43, number == 8));
        assert_eq!(why.to_string(), format!("refused {number}{place}{fixpoint}: {words}"));
    }
}
