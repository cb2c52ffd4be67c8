//! What `--explain` says of an answer: where the limits come from that leave no plan, or where a plan has no room left.

use std::fmt::Write;

use crate::lines::{self, Numbers};
use tugrokt::told::{self, Answer, Bound, Decision, Limit, Ring, Source};
use tugrokt::{House, Sheet};

/// A sheet with the lines of its text.
struct Told<'a> {
    house: House,
    sheet: &'a Sheet,
    lines: Option<Numbers>,
}

/// What there is to say of a sheet's page.
pub fn explain(name: &str, house: House, text: &[u8], sheet: &Sheet, page: &[u8]) -> String {
    let told = Told { house, sheet, lines: lines::numbers(house, text, sheet) };
    if let Some(ring) = Ring::on_page(sheet, page) {
        return format!("{name}: no plan is lawful, since these limits contradict each other:\n{}", told.none(&ring));
    }
    if page.starts_with(b"(answer fits ") {
        let Ok(Decision::Fits(counts)) = told::decide(sheet) else { return String::new() };
        return format!("{name}: it fits.\n{}", told.fits(&counts));
    }
    let Ok(Answer::Plan(plan)) = told::plan(sheet) else { return String::new() };
    format!("{name}: {}.\n{}", told.shares(&plan), told.plan(&plan))
}

impl Told<'_> {
    /// Each limit of a ring with where it comes from, and what would have to give.
    fn none(&self, ring: &Ring) -> String {
        let shortfall = format!("(shortfall {})", ring.shortfall);
        let width = ring.limits.iter().map(|limit| limit.to_string().len()).max().unwrap_or(0).max(shortfall.len());
        let mut said = String::new();
        for limit in &ring.limits {
            let _ = writeln!(said, "  {:width$}  {}", limit.to_string(), self.origin(limit));
        }
        let missing = if ring.shortfall == 1 { "1 delivery".to_string() } else { format!("{} deliveries", ring.shortfall) };
        let _ = writeln!(said, "  {shortfall:width$}  at-least asks for {missing} more than at-most allows");
        let _ = writeln!(said, "For a plan these must give by {} in all: {}.", ring.shortfall, self.ways_out(ring).join(", or "));
        said
    }

    /// What would loosen the limits of a ring: rules that set one alone are named together.
    fn ways_out(&self, ring: &Ring) -> Vec<String> {
        let (mut more, mut fewer, mut others) = (Vec::new(), Vec::new(), Vec::new());
        for limit in &ring.limits {
            match (&limit.sources[..], limit.bound) {
                ([Source::Rule(rule)], Bound::AtMost) => more.push(self.rule_line(*rule)),
                ([Source::Rule(rule)], Bound::AtLeast) => fewer.push(self.rule_line(*rule)),
                _ => others.extend(self.way_out(limit, ring.shortfall)),
            }
        }
        let together = [("allow more", more), ("ask for fewer", fewer)].into_iter().filter(|(_, lines)| !lines.is_empty());
        together.map(|(change, lines)| format!("{change} on {}", listed(&lines, "or"))).chain(others).collect()
    }

    /// Where a limit comes from.
    fn origin(&self, limit: &Limit) -> String {
        let origins: Vec<String> = limit.sources.iter().map(|source| self.source(source)).collect();
        if origins.is_empty() { "no count is less than 0".to_string() } else { origins.join(", and ") }
    }

    fn source(&self, source: &Source) -> String {
        match source {
            Source::Rule(rule) => format!("the {} on {}", self.rule_word(), self.rule_line(*rule)),
            Source::Windows(units) => format!("the {} {}", if units.len() == 1 { "window of" } else { "windows of" }, self.units(units)),
            Source::Units => format!("the number of {}s", self.unit_word()),
        }
    }

    /// What would loosen a limit: all that sets it at once. A least count of 0 holds of itself.
    fn way_out(&self, limit: &Limit, shortfall: usize) -> Option<String> {
        let ways: Vec<String> = limit.sources.iter().map(|source| self.change(limit, source, shortfall)).collect();
        (!ways.is_empty()).then(|| ways.join(" and "))
    }

    fn change(&self, limit: &Limit, source: &Source, shortfall: usize) -> String {
        match (source, limit.bound) {
            (Source::Rule(rule), Bound::AtMost) => format!("allow more on {}", self.rule_line(*rule)),
            (Source::Rule(rule), Bound::AtLeast) => format!("ask for fewer on {}", self.rule_line(*rule)),
            (Source::Windows(units), _) => self.wider(units, limit, shortfall),
            (Source::Units, _) => format!("have more {}s", self.unit_word()),
        }
    }

    /// Windows reach out of a stretch, unless there is nothing outside it.
    fn wider(&self, units: &[usize], limit: &Limit, shortfall: usize) -> String {
        let (first, last) = (limit.first, limit.last);
        if first == 1 && last as usize == tugrokt::carried_place(self.sheet.span) {
            return format!("have fewer {}s", self.unit_word());
        }
        let some = match (units.len(), shortfall) {
            (1, _) => "",
            (_, 1) => "one of ",
            _ => "some of ",
        };
        format!("let {some}{} reach out of {}", self.units(units), stretch(first, last))
    }

    /// How many units have a slot, and how many are carried.
    fn shares(&self, plan: &tugrokt::Plan) -> String {
        let units = self.sheet.loader.len();
        let carried = (0..units).filter(|&unit| plan.is_carried(unit)).count();
        format!("{} of {units} {}{} a slot{}", units - carried, self.unit_word(), if units == 1 { " has" } else { "s have" }, match carried {
            0 => String::new(),
            _ => format!(", {carried} {} carried", if carried == 1 { "is" } else { "are" }),
        })
    }

    /// Which slots are full, and which rules have no room left.
    fn plan(&self, plan: &tugrokt::Plan) -> String {
        let greatest = |slot| plan.range(slot, slot).1 as usize;
        let full = self.slots(|slot| greatest(slot) > 0 && plan.count(slot, slot) == greatest(slot));
        let tight = self.rules(|from, to, high| plan.count(from, to) == high);
        let closed = self.slots(|slot| greatest(slot) == 0);
        said("full slots, in which no lawful plan has more", &full) + &said("slots that no lawful plan uses", &closed)
            + &said_below(&format!("{}s with no room left", self.rule_word()), &tight)
    }

    /// The same of a sheet that only fits: of all its lawful plans.
    fn fits(&self, counts: &tugrokt::Counts) -> String {
        let closed = self.slots(|slot| counts.range(slot, slot).1 == 0);
        let tight = self.rules(|from, to, high| counts.range(from, to).0 as usize == high);
        said("slots that no lawful plan uses", &closed) + &said_below(&format!("{}s with no room left in any lawful plan", self.rule_word()), &tight)
    }

    /// The slots of which something holds.
    fn slots(&self, holds: impl Fn(usize) -> bool) -> Vec<String> {
        ranges((1..=self.sheet.span).filter(|&slot| holds(slot)))
    }

    /// The rules of which something holds, by their stretch and their high.
    fn rules(&self, holds: impl Fn(usize, usize, usize) -> bool) -> Vec<String> {
        let Sheet { from, to, high, .. } = self.sheet;
        let rules = (0..from.len()).filter(|&r| holds(from[r] as usize, to[r] as usize, high[r] as usize));
        rules.map(|r| format!("{}: {} in {}", self.rule_line(r), high[r], stretch(from[r], to[r]))).collect()
    }

    fn unit_word(&self) -> &'static str {
        lines::entry_words(self.house)[0]
    }

    fn rule_word(&self) -> &'static str {
        lines::entry_words(self.house)[1]
    }

    /// The line of a rule, or its place among the rules where the lines are not known.
    fn rule_line(&self, rule: usize) -> String {
        self.lines.as_ref().map_or_else(|| format!("{} {}", self.rule_word(), rule + 1), |lines| format!("line {}", lines.rules[rule]))
    }

    /// Units by their loader numbers and lines.
    fn units(&self, units: &[usize]) -> String {
        let plural = |word: &str| if units.len() == 1 { word.to_string() } else { format!("{word}s") };
        let lines = self.lines.as_ref().map_or(String::new(), |lines| {
            format!(" ({} {})", plural("line"), listed(&ranges(units.iter().map(|&unit| lines.units[unit])), "and"))
        });
        let loaders: Vec<String> = units.iter().map(|&unit| self.sheet.loader[unit].to_string()).collect();
        match loaders.len() {
            0..=MOST_NAMED => format!("{} {}{lines}", plural(self.unit_word()), listed(&loaders, "and")),
            many => format!("{many} {}{lines}", plural(self.unit_word())),
        }
    }
}

/// The most units that are named one by one.
const MOST_NAMED: usize = 8;

/// A line with a list, or with nothing.
fn said(of: &str, list: &[String]) -> String {
    format!("  {of}: {}\n", if list.is_empty() { "none".to_string() } else { list.join(", ") })
}

/// The same with a line for each entry of the list.
fn said_below(of: &str, list: &[String]) -> String {
    if list.is_empty() {
        return said(of, list);
    }
    let entries: String = list.iter().map(|entry| format!("    {entry}\n")).collect();
    format!("  {of}:\n{entries}")
}

/// As `slots 1 to 3`.
fn stretch(first: u16, last: u16) -> String {
    if first == last { format!("slot {first}") } else { format!("slots {first} to {last}") }
}

/// As `1, 2 and 3`, with this word before the last.
fn listed(parts: &[String], word: &str) -> String {
    match parts {
        [front @ .., last] if !front.is_empty() => format!("{} {word} {last}", front.join(", ")),
        _ => parts.concat(),
    }
}

/// Rising numbers with each run of three or more as `2 to 9`.
fn ranges(numbers: impl Iterator<Item = usize>) -> Vec<String> {
    let mut runs: Vec<(usize, usize)> = Vec::new();
    for number in numbers {
        match runs.last_mut() {
            Some((_, last)) if *last + 1 == number => *last = number,
            _ => runs.push((number, number)),
        }
    }
    let shown = |&(first, last): &(usize, usize)| match last - first {
        0 => vec![first.to_string()],
        1 => vec![first.to_string(), last.to_string()],
        _ => vec![format!("{first} to {last}")],
    };
    runs.iter().flat_map(shown).collect()
}
