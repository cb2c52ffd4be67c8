//! What `--explain` says beside a page: it is read again here, and every line that it names is looked up in the text.

mod common;

use std::collections::BTreeSet;
use std::fs;

use common::{folder_with, numbers, run, run_in, sheet, Ended, REFUSED};
use model::cases::{P11_PAGE, P2_FITS_PAGE, P2_PAGE, P4_PAGE};
use model::damage::{valid, with_notes};
use model::effort;
use model::house::House;
use model::page::{parse, Page};
use model::random::{any_sheet, sheet_up_to, Random};
use model::reading::{locate, Located};
use model::seed;

/// What a limit comes from, by the lines of the text.
#[derive(Clone, Debug, PartialEq, Eq, PartialOrd, Ord)]
enum Origin {
    Rule(usize),
    /// How many units, their loader numbers where they are named, and their lines.
    Windows(usize, Option<Vec<usize>>, Vec<usize>),
    Units,
}

/// The most units that are named one by one.
const MOST_NAMED: usize = 8;

/// The words for a unit and a rule.
fn words(house: House) -> (&'static str, &'static str) {
    match house {
        House::Ours => ("unit", "rule"),
        House::Partner => ("job", "limit"),
    }
}

/// The two words of a house's call.
fn call<'a>(house: House, word: &'a str) -> Vec<&'a str> {
    match house {
        House::Ours => vec![word, "--explain"],
        House::Partner => vec![word, "--explain", "--partner"],
    }
}

/// A limit as the page has it: whether it is one from above, its count, and its stretch.
fn limit(line: &str) -> (bool, usize, usize, usize) {
    let part: Vec<&str> = line.trim_matches(['(', ')']).split([' ', '(']).filter(|part| !part.is_empty()).collect();
    let [kind, count, "slots", first, last] = part[..] else { panic!("{line}") };
    let number = |word: &str| word.parse::<usize>().unwrap();
    (kind == "at-most", number(count), number(first), number(last))
}

/// All that sets a limit, by the test's own count.
fn origins(located: &Located, line: &str) -> BTreeSet<Origin> {
    let (from_above, count, first, last) = limit(line);
    let Located { sheet, units, rules, .. } = located;
    let mut all = BTreeSet::new();
    for (rule, spot) in sheet.rules.iter().zip(rules).filter(|(rule, _)| (rule.from as usize, rule.to as usize) == (first, last)) {
        let set = if from_above { rule.high } else { rule.low };
        if set as usize == count && (from_above || count > 0) {
            all.insert(Origin::Rule(spot.number));
        }
    }
    if from_above && sheet.units.len() == count {
        all.insert(Origin::Units);
    }
    let inside: Vec<usize> = (0..units.len()).filter(|&i| first <= sheet.units[i].first as usize && sheet.units[i].last as usize <= last).collect();
    if !from_above && inside.len() == count && count > 0 {
        let loaders = (inside.len() <= MOST_NAMED).then(|| inside.iter().map(|&i| sheet.units[i].loader as usize).collect());
        all.insert(Origin::Windows(count, loaders, inside.iter().map(|&i| units[i].number).collect()));
    }
    all
}

/// The units that words name, as `units 7 and 3 (lines 2 and 5)` or `12 units (lines 2 to 13)`.
fn windows(house: House, said: &str) -> Origin {
    let (unit, _) = words(house);
    let (named, lines) = said.strip_suffix(')').and_then(|said| said.split_once(" (line")).unwrap_or_else(|| panic!("{said}"));
    let lines = numbers(lines.trim_start_matches('s').trim_start());
    let one = lines.len() == 1;
    let unit = if one { unit.to_string() } else { format!("{unit}s") };
    match named.strip_prefix(&format!("{unit} ")) {
        Some(list) => {
            let loaders = numbers(list);
            Origin::Windows(loaders.len(), Some(loaders), lines)
        }
        None => Origin::Windows(numbers(named.strip_suffix(&format!(" {unit}")).unwrap_or_else(|| panic!("{said}")))[0], None, lines),
    }
}

/// Where words say that a limit comes from.
fn said_origins(house: House, said: &str) -> BTreeSet<Origin> {
    let (unit, rule) = words(house);
    if said == "no count is less than 0" {
        return BTreeSet::new();
    }
    let one = |part: &str| match part {
        _ if part == format!("number of {unit}s") => Origin::Units,
        _ => match part.strip_prefix(&format!("{rule} on line ")) {
            Some(line) => Origin::Rule(line.parse().unwrap()),
            None => windows(house, part.strip_prefix("windows of ").or(part.strip_prefix("window of ")).unwrap_or_else(|| panic!("{said}"))),
        },
    };
    said.strip_prefix("the ").unwrap_or_else(|| panic!("{said}")).split(", and the ").map(one).collect()
}

/// All numbers of lines that words name.
fn lines_named(said: &str) -> BTreeSet<usize> {
    said.split("line").skip(1).flat_map(|part| numbers(front_list(part.trim_start_matches('s').trim_start()))).collect()
}

/// The front of a text that is a list of numbers.
fn front_list(text: &str) -> &str {
    let (mut at, mut end) = (0, 0);
    for word in text.split_inclusive(' ') {
        let number = word.trim_end_matches([' ', ',', ')', '.']);
        if !number.is_empty() && number.bytes().all(|byte| byte.is_ascii_digit()) {
            end = at + number.len();
        } else if !["and ", "to "].contains(&word) {
            break;
        }
        if word.contains([')', '.']) {
            break;
        }
        at += word.len();
    }
    &text[..end]
}

/// Holds that an explanation of none is right, line by line.
fn hold_none(house: House, name: &str, text: &[u8], Ended { page, said, .. }: &Ended) {
    let located = locate(house, text).unwrap();
    let mut lines = said.lines();
    assert_eq!(lines.next(), Some(&format!("{name}: no plan is lawful, since these limits contradict each other:")[..]));
    let mut named = BTreeSet::new();
    let ring: Vec<&str> = page.lines().filter(|line| line.contains("(slots ")).collect();
    for limit in &ring {
        let line = lines.next().unwrap();
        let (shown, origin) = line.strip_prefix("  ").unwrap().split_once("))").map(|(front, back)| (format!("{front}))"), back.trim_start())).unwrap();
        assert_eq!(&shown, limit, "{said}");
        assert_eq!(said_origins(house, origin), origins(&located, limit), "{limit}: {origin}\n{}", String::from_utf8_lossy(text));
        named.extend(lines_named(origin));
    }
    let shortfall = page.lines().last().unwrap();
    let line = lines.next().unwrap();
    let missing = shortfall.strip_prefix("(shortfall ").unwrap().trim_end_matches(')');
    assert!(line.trim_start().starts_with(shortfall) && line.contains(&format!(" {missing} ")), "{said}");
    let ways = lines.next().unwrap();
    assert!(ways.starts_with("For a plan ") && ways.ends_with('.') && ways.contains(&format!(" {missing} ")), "{said}");
    let (advised, whole) = (lines_named(ways), format!("{}s", words(house).0));
    assert!(advised.is_subset(&named), "{said}");
    // All lines are named that could give, unless it is the number of all units that would have to.
    assert!(advised == named || ways.contains(&format!("have fewer {whole}")), "{said}");
    assert_eq!(lines.next(), None);
}

/// A ring of two rules and windows, of the number of units, and of the carried place, word for word.
#[test]
fn rings() {
    let text = "(note)\n(sheet 3)\n(unit 17 (window 1 3))\n(rule (slots 1 3) (count 1 1))\n(unit 4 (window 2 3))\n(rule (slots 1 3) (count 0 1))\n";
    let Ended { status, page, said } = run(&["plan", "--explain"], text.as_bytes());
    assert_eq!((status, page.as_str()), (1, P4_PAGE));
    assert!(said.contains("\n  (at-most 1 (slots 1 3))   the rule on line 4, and the rule on line 6\n"), "{said}");
    assert!(said.contains("\n  (at-least 2 (slots 1 3))  the windows of units 17 and 4 (lines 3 and 5)\n"), "{said}");
    assert!(said.starts_with("standard input: no plan"), "{said}");
    let text = b"(sheet 2)\n(unit 4017 (window 2 3))\n(unit 212 (window 2 3))\n(rule (slots 1 1) (count 1 1))\n";
    let said = run(&["fits", "--explain"], text).said;
    assert!(said.contains("\n  (at-most 2 (slots 1 3))   the number of units\n"), "{said}");
    assert!(said.contains("\n  (at-least 1 (slots 1 1))  the rule on line 4\n"), "{said}");
    let units: String = (1..=12).map(|loader| format!("(unit {loader} (window 2 2))\n")).collect();
    let said = run(&["plan", "--explain"], format!("(sheet 3)\n{units}(rule (slots 2 2) (count 0 9))\n").as_bytes()).said;
    assert!(said.contains("the windows of 12 units (lines 2 to 13)\n") && said.contains("the rule on line 14\n"), "{said}");
    let theirs = b"(day 2)\n(limit (from 1) (hours 2) (most 0))\n(job 1 (start 1) (hours 2))\n";
    let said = run(&["plan", "--explain", "--partner"], theirs).said;
    assert!(said.contains("  the limit on line 2\n") && said.contains("  the window of job 1 (line 3)\n"), "{said}");
}

/// Holds explanations on random sheets of a house that have no plan, asked by either word.
fn random_rings(house: House, own: u64) {
    let seed = seed(own);
    let (mut rings, mut i) = (0, 0);
    while rings < effort(120) {
        let mut r = Random::of_case(seed, i);
        i += 1;
        let sheet = if r.chance(60) { sheet_up_to(&mut r, 9, 12) } else { any_sheet(&mut r) };
        let text = with_notes(&mut r, house, &sheet.kept_by(house));
        let word = *r.pick(&["plan", "fits"]);
        let ended = run(&call(house, word), &text);
        assert_eq!(ended.page, run(&call(house, word).into_iter().filter(|word| *word != "--explain").collect::<Vec<_>>(), &text).page);
        if ended.status == 1 {
            rings += 1;
            hold_none(house, "standard input", &text, &ended);
        }
    }
}

/// Every line that is named is a rule's or a unit's on the right stretch, and none is left out.
#[test]
fn random_rings_of_ours() {
    random_rings(House::Ours, 0xe1);
}

/// The same of the partner's jobs and limits, by the lines of the partner's text.
#[test]
fn random_rings_of_theirs() {
    random_rings(House::Partner, 0xe2);
}

/// What stands behind this in a line of its own; a list is empty where it says none.
fn listed<'a>(said: &'a str, what: &str) -> &'a str {
    let lines: Vec<&str> = said.lines().filter_map(|line| line.strip_prefix(&format!("  {what}: "))).collect();
    let [list] = lines[..] else { panic!("{what}: {said}") };
    if list == "none" { "" } else { list }
}

/// Slots in a list.
fn slots(list: &str) -> Vec<usize> {
    if list.is_empty() { Vec::new() } else { numbers(list) }
}

/// Rules in a list, as the line, the stretch and the count of each.
fn rules(list: &str) -> Vec<[usize; 4]> {
    let rule = |part: &str| {
        let words: Vec<&str> = part.split([' ', ':']).filter(|word| !word.is_empty()).collect();
        let (line, first, last, count) = match words[..] {
            ["line", line, count, "in", "slots", first, "to", last] if first != last => (line, first, last, count),
            ["line", line, count, "in", "slot", slot] => (line, slot, slot, count),
            _ => panic!("{part}"),
        };
        [line, first, last, count].map(|word| word.parse().unwrap())
    };
    list.lines().map(rule).collect()
}

/// What stands below this, an entry a line; nothing where it says none.
fn listed_below(said: &str, what: &str) -> String {
    let Some((_, below)) = said.split_once(&format!("\n  {what}:\n")) else { return listed(said, what).to_string() };
    below.lines().map_while(|line| line.strip_prefix("    ")).map(|line| format!("{line}\n")).collect()
}

/// The rules of a text of which something holds, in the same form.
fn rules_with(located: &Located, holds: impl Fn(usize, usize, usize) -> bool) -> Vec<[usize; 4]> {
    let all = located.sheet.rules.iter().zip(&located.rules);
    let all = all.map(|(rule, spot)| [spot.number, rule.from as usize, rule.to as usize, rule.high as usize]);
    all.filter(|&[_, from, to, high]| holds(from, to, high)).collect()
}

/// Holds what is said of a plan by the counts on its page.
fn hold_plan(house: House, name: &str, text: &[u8], Ended { page, said, .. }: &Ended) {
    let Some(Page::Plan { units, slots: counts }) = parse(page.as_bytes()) else { panic!("{page}") };
    let (located, (unit, rule)) = (locate(house, text).unwrap(), words(house));
    let seated = units.iter().filter(|unit| unit.slot.is_some()).count();
    let carried = match units.len() - seated {
        0 => String::new(),
        1 => ", 1 is carried".to_string(),
        many => format!(", {many} are carried"),
    };
    let have = if units.len() == 1 { format!("{unit} has") } else { format!("{unit}s have") };
    assert_eq!(said.lines().next(), Some(&format!("{name}: {seated} of {} {have} a slot{carried}.", units.len())[..]));
    let full = (1..).zip(&counts).filter(|(_, slot)| slot.count == slot.greatest && slot.greatest > 0).map(|(slot, _)| slot);
    let closed = (1..).zip(&counts).filter(|(_, slot)| slot.greatest == 0).map(|(slot, _)| slot);
    assert_eq!(slots(listed(said, "full slots, in which no lawful plan has more")), full.collect::<Vec<usize>>(), "{page}{said}");
    assert_eq!(slots(listed(said, "slots that no lawful plan uses")), closed.collect::<Vec<usize>>(), "{page}{said}");
    let count = |from: usize, to: usize| counts[from - 1..to].iter().map(|slot| slot.count as usize).sum::<usize>();
    let tight = rules_with(&located, |from, to, high| count(from, to) == high);
    assert_eq!(rules(&listed_below(said, &format!("{rule}s with no room left"))), tight, "{page}{said}");
    assert_eq!(said.lines().count(), 4 + tight.len(), "{said}");
}

/// Holds what is said of a sheet that fits: slots by the page, and rules by the model's own table.
fn hold_fits(house: House, name: &str, text: &[u8], Ended { page, said, .. }: &Ended) {
    let Some(Page::Fits { ranges, .. }) = parse(page.as_bytes()) else { panic!("{page}") };
    let (located, (_, rule)) = (locate(house, text).unwrap(), words(house));
    let (solved, w) = (model::computed::solve(&located.sheet).unwrap(), located.sheet.boundaries());
    assert_eq!(said.lines().next(), Some(&format!("{name}: it fits.")[..]));
    let closed = (1..).zip(&ranges).filter(|(_, range)| range.1 == 0).map(|(slot, _)| slot);
    assert_eq!(slots(listed(said, "slots that no lawful plan uses")), closed.collect::<Vec<usize>>(), "{page}{said}");
    let least = |from: usize, to: usize| -solved.table[to * w + from - 1] as usize;
    let tight = rules_with(&located, |from, to, high| least(from, to) == high);
    assert_eq!(rules(&listed_below(said, &format!("{rule}s with no room left in any lawful plan"))), tight, "{page}{said}");
    assert_eq!(said.lines().count(), 3 + tight.len(), "{said}");
}

/// Full slots and rules without room of a sheet by hand, and units that are carried.
#[test]
fn plans() {
    let ended = run(&["plan", "--explain"], &sheet("P2"));
    assert_eq!((ended.status, ended.page.as_str()), (0, P2_PAGE));
    assert!(ended.said.starts_with("standard input: 2 of 2 units have a slot.\n"), "{}", ended.said);
    assert!(ended.said.contains(": 1, 3\n") && ended.said.contains("\n    line 4: 1 in slots 1 to 2\n    line 5: 1 in slots 2 to 3\n"), "{}", ended.said);
    hold_plan(House::Ours, "standard input", &sheet("P2"), &ended);
    let ended = run(&["plan", "--explain"], &sheet("P11"));
    assert_eq!((ended.status, ended.page.as_str()), (0, P11_PAGE));
    assert!(ended.said.starts_with("standard input: 1 of 2 units have a slot, 1 is carried.\n"), "{}", ended.said);
}

/// Holds what is said of random sheets of a house that have a plan, by either word, and that nothing is said of refused ones but the refusal.
fn random_plans(house: House, own: u64) {
    let seed = seed(own);
    let mut seen = [0; 2];
    for i in 0..effort(150) {
        let text = valid(&mut Random::of_case(seed, i), house);
        let [plan, fits] = ["plan", "fits"].map(|word| run(&call(house, word), &text));
        if plan.status == 0 {
            hold_plan(house, "standard input", &text, &plan);
            hold_fits(house, "standard input", &text, &fits);
        } else {
            assert_eq!(plan, fits, "seed {seed}, case {i}");
        }
        seen[plan.status as usize] += 1;
    }
    assert!(seen[0] > 0 && seen[1] > 0, "{seen:?}");
}

/// By the test's own count from the page.
#[test]
fn random_plans_of_ours() {
    random_plans(House::Ours, 0xe3);
}

/// The same of the partner's, in its words.
#[test]
fn random_plans_of_theirs() {
    random_plans(House::Partner, 0xe4);
}

/// Of several files each is explained under its name, in their order, and a refused one is refused as ever. The pages are what they are.
#[test]
fn several_files() {
    let (p2, p4) = (sheet("P2"), sheet("P4"));
    let folder = folder_with("explaining", &[("a plan", &p2), ("none", &p4), ("refused", REFUSED.0)]);
    let plain = run_in(&folder, &["plan", "none", "refused", "missing", "a plan"], b"");
    let ended = run_in(&folder, &["plan", "--explain", "none", "refused", "missing", "a plan"], b"");
    assert_eq!((ended.status, &ended.page), (3, &[P4_PAGE, REFUSED.1, P2_PAGE].concat()));
    let alone = ["none", "refused", "missing", "a plan"].map(|name| run_in(&folder, &["plan", "--explain", name], b"").said);
    assert_eq!(ended.said, alone.concat());
    assert_eq!(plain.said, alone[1..3].concat());
    assert!(alone[0].starts_with("none: no plan is lawful") && alone[3].starts_with("a plan: 2 of 2 units"), "{}", ended.said);
    let pages = run_in(&folder, &["fits", "--explain", "--to", "pages", "a plan", "none"], b"");
    let fits = ["a plan", "none"].map(|name| run_in(&folder, &["fits", "--explain", name], b"").said).concat();
    assert_eq!(pages, Ended::new(1, "", &format!("{fits}tugrokt: 2 sheets: 1 fit, 1 none\n")));
    assert_eq!(fs::read_to_string(folder.join("pages/a plan.page")).unwrap(), P2_FITS_PAGE);
}
