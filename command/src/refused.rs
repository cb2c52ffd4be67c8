//! A refusal in words, as a compiler says it: the demand, the file, the line with what is invisible made visible, and a hint.
//!
//! Question and line are the library's. All else comes from lists that the library read, or is a hint that it confirmed.

use crate::hints::{self, Case};
use crate::lines::{self, excerpt, is_plain};
use tugrokt::told::{self, Place, Refusal};
use tugrokt::{House, Sheet};

/// A refusal of one text in words: by reading it, or on its way to the partner.
pub fn words(name: &str, house: House, text: &[u8], refusal: &Refusal) -> String {
    let case = Case::of(house, text, refusal);
    let hint = hints::hint(house, text, refusal);
    let foreign = case.line().iter().position(|&byte| refusal.question() == 2 && !is_plain(byte));
    let at = foreign.or(hint.as_ref().map(|hint| hint.at)).unwrap_or(0);
    let remark = hint.map(hinted).or_else(|| (refusal.question() == 3).then(|| forms(house, case.line())));
    Report {
        demand: demand(house, refusal),
        place: placed(name, case.number),
        number: case.number,
        line: case.line(),
        at,
        remarks: remark.into_iter().collect(),
        refusal,
    }
    .to_string()
}

/// A refusal of two texts by merging them, or by asking for the line of a unit, in words.
pub fn words_of_two(names: [&str; 2], texts: [&[u8]; 2], refusal: &Refusal) -> String {
    let own = refusal.text(texts[0]).map_or(0, |text| text - 1);
    match (told::read(texts[0]), told::read(texts[1])) {
        (Ok(one), Ok(two)) => Two { names, texts, sheets: [one, two] }.words(own, refusal),
        _ => words(names[own], House::Ours, texts[own], refusal),
    }
}

/// What would have to be so, in the words of the house.
fn demand(house: House, refusal: &Refusal) -> &'static str {
    match (house, refusal) {
        (House::Partner, Refusal::Slots(_)) => "the hours must lie inside the day: 1 ≤ start, 1 ≤ hours, start + hours - 1 ≤ day",
        (House::Partner, Refusal::Count(_)) => "the most must be at most 300",
        _ => refusal.demand(),
    }
}

/// A file, and a line of it unless that is 0, as compilers name them.
fn placed(name: &str, number: usize) -> String {
    let name = name.replace(char::is_control, "?");
    if number == 0 { name } else { format!("{name}:{number}") }
}

/// A hint as a remark, with the line as it would be taken, unless that is too long to show.
fn hinted(hint: hints::Hint) -> String {
    let line = hint.line.map(|line| excerpt(&line, 0).shown).filter(|line| !line.ends_with(".."));
    format!("hint: {}{}", hint.says, line.map_or(String::new(), |line| format!("; this is taken: {line}")))
}

/// The form that a line begins like, or all of them.
fn forms(house: House, line: &[u8]) -> String {
    let examples = hints::examples(house);
    let word = |form: &str| form.split(' ').next().unwrap_or("").to_string();
    match examples.iter().find(|form| line.starts_with(word(form).as_bytes())) {
        Some(form) => format!("note: the form is {form}"),
        None => format!("note: the forms are {}", examples.join(", ")),
    }
}

/// All that is said of a refusal.
struct Report<'a> {
    demand: &'a str,
    place: String,
    number: usize,
    line: &'a [u8],
    /// The place in the line that is to be seen where the line is long.
    at: usize,
    remarks: Vec<String>,
    refusal: &'a Refusal,
}

impl std::fmt::Display for Report<'_> {
    /// As compilers lay it out: the margin is as wide as the number of the line.
    fn fmt(&self, f: &mut std::fmt::Formatter) -> std::fmt::Result {
        let number = if self.number == 0 { " ".to_string() } else { self.number.to_string() };
        let gutter = " ".repeat(number.len());
        writeln!(f, "error: {}\n{gutter}--> {}", self.demand, self.place)?;
        if self.number > 0 {
            let seen = excerpt(self.line, self.at);
            for (margin, shown) in [(&gutter, ""), (&number, &seen.shown[..]), (&gutter, &seen.carets)] {
                writeln!(f, "{}", format!("{margin} | {shown}").trim_end())?;
            }
        }
        self.remarks.iter().try_for_each(|remark| writeln!(f, "{gutter} = {remark}"))?;
        writeln!(f, "{gutter} = refused by question {}{}", self.refusal.question(), of_list(self.refusal))
    }
}

/// For 17 and 18 the page has a place in the lists, which is no line of the text.
fn of_list(refusal: &Refusal) -> String {
    match refusal.place() {
        place @ (Place::Unit(_) | Place::Rule(_)) => format!(", of {place}"),
        _ => String::new(),
    }
}

/// Two texts that are a sheet each.
struct Two<'a> {
    names: [&'a str; 2],
    texts: [&'a [u8]; 2],
    sheets: [Sheet; 2],
}

/// A rule of one of two sheets: where it stands, its low and its high.
struct Counted {
    place: String,
    low: u16,
    high: u16,
}

impl Two<'_> {
    /// The refusal, with a line of the text `own`.
    fn words(&self, own: usize, refusal: &Refusal) -> String {
        let number = refusal.line();
        let both = || self.names.map(|name| placed(name, 0)).join(", ");
        Report {
            demand: refusal.demand(),
            place: if *refusal == Refusal::UnknownLoader { both() } else { placed(self.names[own], number) },
            number,
            line: lines::line(self.texts[own], number).unwrap_or(b""),
            at: 0,
            remarks: self.remarks(refusal, number),
            refusal,
        }
        .to_string()
    }

    /// What the lists of the two say about it.
    fn remarks(&self, refusal: &Refusal, number: usize) -> Vec<String> {
        match refusal {
            Refusal::UnequalSpans(_) => vec![self.spans()],
            Refusal::LoaderInBoth(_) => self.first_line(number).into_iter().collect(),
            Refusal::TooManyUnits(_) => vec![self.units()],
            Refusal::TooManyRules(_) => vec![format!("note: the rules of both are on {} stretches", self.stretches())],
            Refusal::CrossedCounts(_) => self.stretch(number).map_or(Vec::new(), |stretch| self.crossed(stretch)),
            Refusal::UnknownLoader => vec![self.units()],
            _ => Vec::new(),
        }
    }

    /// Where the line of this index in the list of units, or of rules, stands.
    fn placed(&self, sheet: usize, list: fn(lines::Numbers) -> Vec<usize>, index: usize) -> Option<(String, usize)> {
        let number = list(lines::numbers(House::Ours, self.texts[sheet], &self.sheets[sheet])?).get(index).copied()?;
        Some((placed(self.names[sheet], number), number))
    }

    /// Both spans.
    fn spans(&self) -> String {
        let line = |text| lines::lines(text).position(|line| line.starts_with(b"(sheet ")).map_or(0, |index| index + 1);
        let [one, two] = [0, 1].map(|i| format!("{} has the span {}", placed(self.names[i], line(self.texts[i])), self.sheets[i].span));
        format!("note: {one}, and {two}")
    }

    /// How many units each has.
    fn units(&self) -> String {
        let [one, two] = [0, 1].map(|i| self.sheets[i].loader.len());
        format!("note: {} has {one} units and {} has {two}: {} together", placed(self.names[0], 0), placed(self.names[1], 0), one + two)
    }

    /// The unit of the first sheet that has the loader number of this line of the second.
    fn first_line(&self, number: usize) -> Option<String> {
        let [one, two] = &self.sheets;
        let unit = lines::numbers(House::Ours, self.texts[1], two)?.units.iter().position(|&line| line == number)?;
        let first = one.loader.iter().position(|loader| *loader == two.loader[unit])?;
        let (place, number) = self.placed(0, |numbers| numbers.units, first)?;
        let line = lines::visible(lines::line(self.texts[0], number)?);
        Some(format!("note: loader {} is at {place} too: {line}", two.loader[unit]))
    }

    /// How many stretches the rules of both are on.
    fn stretches(&self) -> usize {
        let all = self.sheets.iter().flat_map(|sheet| sheet.from.iter().zip(&sheet.to));
        all.collect::<std::collections::BTreeSet<_>>().len()
    }

    /// The stretch of the second sheet's rule on this line, or else the first one on which rules of the first sheet alone cross.
    fn stretch(&self, number: usize) -> Option<(u16, u16)> {
        let [one, two] = &self.sheets;
        let lines = lines::numbers(House::Ours, self.texts[1], two)?.rules;
        match lines.iter().position(|&line| line == number) {
            Some(rule) => Some((two.from[rule], two.to[rule])),
            None => one.from.iter().copied().zip(one.to.iter().copied()).find(|&stretch| crosses(one, stretch)),
        }
    }

    /// The rules on a stretch, and the two of them that leave no count.
    fn crossed(&self, stretch: (u16, u16)) -> Vec<String> {
        const MOST: usize = 8;
        let rules = self.rules_on(stretch);
        let (Some(low), Some(high)) = (rules.iter().rev().max_by_key(|rule| rule.low), rules.iter().min_by_key(|rule| rule.high)) else {
            return Vec::new();
        };
        let shown = rules.iter().take(MOST).map(|rule| format!("note: {} has the low {} and the high {}", rule.place, rule.low, rule.high));
        let more = (rules.len() > MOST).then(|| format!("note: and {} more rules are on this stretch", rules.len() - MOST));
        let (first, last) = stretch;
        let why = format!("note: in the slots {first} to {last} no count is at least {} ({}) and at most {} ({})", low.low, low.place, high.high, high.place);
        shown.chain(more).chain([why]).collect()
    }

    /// The rules of both on a stretch.
    fn rules_on(&self, (from, to): (u16, u16)) -> Vec<Counted> {
        let of_sheet = |i: usize| {
            let sheet = &self.sheets[i];
            let on = (0..sheet.from.len()).filter(move |&rule| (sheet.from[rule], sheet.to[rule]) == (from, to));
            on.filter_map(move |rule| {
                let (place, _) = self.placed(i, |numbers| numbers.rules, rule)?;
                Some(Counted { place, low: sheet.low[rule], high: sheet.high[rule] })
            })
        };
        [0, 1].into_iter().flat_map(of_sheet).collect()
    }
}

/// Whether the library refuses the rules of a sheet on this stretch, taken alone, because they leave no count.
fn crosses(sheet: &Sheet, stretch: (u16, u16)) -> bool {
    let mut alone = Sheet::new(sheet.span);
    for rule in (0..sheet.from.len()).filter(|&rule| (sheet.from[rule], sheet.to[rule]) == stretch) {
        alone.add_rule(sheet.from[rule], sheet.to[rule], sheet.low[rule], sheet.high[rule]);
    }
    let texts = [alone.write(), Sheet::new(sheet.span).write()];
    matches!(&texts, [Ok(one), Ok(two)] if matches!(told::merge(one, two), Err(Refusal::CrossedCounts(_))))
}

#[cfg(test)]
mod tests {
    use super::*;
    use crate::hints::Reach;
    use crate::lines::{line, lines};

    const OURS: &[u8] = b"(note the wave (of May))\n(sheet 7)\n(unit 4017 (window 1 4))\n(rule (slots 1 3) (count 0 5))\n\
                          (unit 12 (window 7 8))\n(note)\n(rule (slots 2 2) (count 1 2))\n(unit 9 (window 2 2))\n";
    const THEIRS: &[u8] = b"(day 7)\n(note theirs)\n(job 4017 (start 3) (hours 2))\n(limit (from 1) (hours 3) (most 2))\n(job 12 (start 7) (hours 1))\n";

    /// What is said of a text of ours that is refused.
    fn said(text: &[u8]) -> String {
        words("north.sheet", House::Ours, text, &hints::tests::refusal(House::Ours, text).unwrap())
    }

    /// What is said of two texts that cannot be merged.
    fn said_of_two(one: &[u8], two: &[u8]) -> String {
        words_of_two(["a.sheet", "b.sheet"], [one, two], &told::merge(one, two).unwrap_err())
    }

    #[test]
    fn a_line_with_a_hint() {
        let expected = "error: the slots must be 1 ≤ first ≤ last ≤ span (a window on a sheet of ours may end with span + 1)\n --> north.sheet:3\n  |\n\
                        3 | (unit 4017 (window 4 3))\n  |\n  = hint: the first slot, 4, comes after the last, 3\n  = refused by question 7\n";
        assert_eq!(said(b"(note)\n(sheet 4)\n(unit 4017 (window 4 3))\n"), expected);
    }

    #[test]
    fn a_line_of_two_digits_with_carets() {
        let text = [&b"(note)\n".repeat(9)[..], b"(sheet\t4)\r\n"].concat();
        let expected = "error: every byte must be a printable one of ASCII (32 to 126) or a line feed\n  --> north.sheet:10\n   |\n\
                        10 | (sheet<tab>4)<cr>\n   |       ^^^^^  ^^^^\n   = hint: the line has a tab, a control byte: save the file as plain ASCII, with Unix \
                        line ends\n   = refused by question 2\n";
        assert_eq!(said(&text), expected);
    }

    #[test]
    fn a_line_that_is_taken() {
        let expected = "error: the line must be one of the forms, exactly as shown, with a line feed at its end\n --> north.sheet:1\n  |\n\
                        1 | (sheet 4)<space>\n  |\n  = hint: the line ends with a space: leave it out; this is taken: (sheet 4)\n  = refused by question 3\n";
        assert_eq!(said(b"(sheet 4) \n"), expected);
    }

    #[test]
    fn no_line() {
        let expected = "error: the form that gives the span must come first, apart from notes, and only once\n --> north.sheet\n  \
                        = hint: the text is empty: a sheet begins with its span, (sheet 4)\n  = refused by question 5\n";
        assert_eq!(said(b""), expected);
    }

    #[test]
    fn a_unit_by_its_place_in_the_lists() {
        let said = said(b"(note)\n(sheet 4)\n(unit 4017 (window 1 4))\n(unit 212 (window 3 5))\n");
        assert!(said.contains(" --> north.sheet:4\n  |\n4 | (unit 212 (window 3 5))\n  |\n  = hint: loader 212 "), "{said}");
        assert!(said.ends_with("  = refused by question 17, of unit 2\n"), "{said}");
    }

    #[test]
    fn forms_where_no_hint_fits() {
        assert!(said(b"(sheet 4)\n(unit)\n").contains("  = note: the form is (unit 4017 (window 1 2))\n"));
        assert!(said(b"(answer plan 2)\n").contains("  = note: the forms are (sheet 4), (unit 4017 (window 1 2)), "));
    }

    #[test]
    fn a_refusal_of_one_of_two() {
        let own = |said: &str, place: &str| assert!(said.contains(&format!(" --> {place}\n")), "{said}");
        own(&said_of_two(b"(sheet 49)\n", b""), "a.sheet:1");
        own(&said_of_two(b"(sheet 4)\n", b""), "b.sheet");
        own(&said_of_two(b"(sheet 4)\n", b"(sheet 4)\n\n"), "b.sheet:2");
        assert!(said_of_two(b"(sheet 4)\n", b"(sheet 4)\n\n").contains("hint: the line is empty"));
    }

    #[test]
    fn unequal_spans() {
        let said = said_of_two(b"(sheet 7)\n", b"(note)\n(sheet 8)\n");
        assert!(said.contains(" --> b.sheet:2\n  |\n2 | (sheet 8)\n  |\n  = note: a.sheet:1 has the span 7, and b.sheet:2 has the span 8\n"), "{said}");
    }

    #[test]
    fn a_loader_in_both() {
        let said = said_of_two(b"(sheet 7)\n(note)\n(unit 12 (window 1 4))\n", b"(sheet 7)\n(unit 40 (window 1 4))\n(unit 12 (window 2 3))\n");
        assert!(said.contains("3 | (unit 12 (window 2 3))\n  |\n  = note: loader 12 is at a.sheet:3 too: (unit 12 (window 1 4))\n"), "{said}");
    }

    #[test]
    fn too_many_in_both() {
        let units = |from: usize, to: usize| (from..to).map(|i| format!("(unit {i} (window 1 4))\n")).collect::<String>();
        let rules = |from: usize, to: usize| (from..to).map(|i| format!("(rule (slots {i} {i}) (count 0 1))\n")).collect::<String>();
        let two = |one: String, two: String| said_of_two(format!("(sheet 48)\n{one}").as_bytes(), format!("(sheet 48)\n{two}").as_bytes());
        assert!(two(units(1, 300), units(300, 303)).contains("  = note: a.sheet has 299 units and b.sheet has 3: 302 together\n"));
        let both = rules(1, 49) + &(1..12).map(|i| format!("(rule (slots {i} 48) (count 0 1))\n")).collect::<String>();
        assert!(two(both, "(rule (slots 1 2) (count 0 1))\n(rule (slots 1 3) (count 0 1))\n".to_string()).contains("on 61 stretches\n"));
    }

    #[test]
    fn counts_that_cross() {
        let between = said_of_two(b"(sheet 7)\n(rule (slots 1 3) (count 0 2))\n", b"(sheet 7)\n(note)\n(rule (slots 1 3) (count 3 4))\n");
        let expected = " --> b.sheet:3\n  |\n3 | (rule (slots 1 3) (count 3 4))\n  |\n  = note: a.sheet:2 has the low 0 and the high 2\n  \
                        = note: b.sheet:3 has the low 3 and the high 4\n  \
                        = note: in the slots 1 to 3 no count is at least 3 (b.sheet:3) and at most 2 (a.sheet:2)\n  = refused by question 21\n";
        assert!(between.ends_with(expected), "{between}");
        let one = b"(sheet 7)\n(rule (slots 1 1) (count 0 2))\n(rule (slots 1 3) (count 0 2))\n(rule (slots 1 3) (count 3 4))\n";
        let inside = said_of_two(one, b"(sheet 7)\n(rule (slots 1 1) (count 2 2))\n");
        let expected = " --> a.sheet\n  = note: a.sheet:3 has the low 0 and the high 2\n  = note: a.sheet:4 has the low 3 and the high 4\n";
        assert!(inside.contains(expected), "{inside}");
    }

    #[test]
    fn a_loader_in_neither() {
        let refusal = told::line_of(OURS, b"(sheet 7)\n", 5).unwrap_err();
        let expected = "error: the loader number must be in one of the two sheets\n --> a.sheet, b.sheet\n  \
                        = note: a.sheet has 3 units and b.sheet has 0: 3 together\n  = refused by question 27\n";
        assert_eq!(words_of_two(["a.sheet", "b.sheet"], [OURS, b"(sheet 7)\n"], &refusal), expected);
    }

    /// Numbers that look random (Marsaglia's xorshift), the same on every run.
    struct Random(u64);

    impl Random {
        fn below(&mut self, bound: usize) -> usize {
            self.0 ^= self.0 << 13;
            self.0 ^= self.0 >> 7;
            self.0 ^= self.0 << 17;
            (self.0 % bound.max(1) as u64) as usize
        }

        /// A byte that a slip may bring.
        fn byte(&mut self) -> u8 {
            const LIKELY: &[u8] = b" ()0123456789\t\r\n,-#;nuUsw\xe2\x80\x93\xc2\xa0\0";
            if self.below(4) > 0 { LIKELY[self.below(LIKELY.len())] } else { self.below(256) as u8 }
        }

        /// A text with a slip: a byte changed, put in or left out, or a line put in again, left out or cut.
        fn slip(&mut self, text: &mut Vec<u8>) {
            let at = self.below(text.len());
            let of_line = lines::range(text, 1 + self.below(lines(text).count())).unwrap_or(0..0);
            match self.below(7) {
                0 if !text.is_empty() => text[at] = self.byte(),
                1 if !text.is_empty() => drop(text.remove(at)),
                2 => drop(text.splice(at..at, [self.byte()])),
                3 => text.extend_from_within(of_line),
                4 => drop(text.splice(..0, [&text[of_line], b"\n"].concat())),
                5 => drop(text.drain(of_line)),
                _ => text.truncate(text.len() - self.below(3).min(text.len())),
            }
        }

        fn slips(&mut self, text: &[u8]) -> Vec<u8> {
            let mut text = text.to_vec();
            (0..1 + self.below(3)).for_each(|_| self.slip(&mut text));
            text
        }
    }

    /// Whether all that is said can be printed, in lines that each end.
    fn assert_printable(said: &str) {
        assert!(said.ends_with('\n') && !said.contains("\n\n"), "{said}");
        assert!(said.chars().all(|c| c == '\n' || c == '≤' || (' '..='~').contains(&c)), "{said:?}");
    }

    /// Holds a hint against the library again: its text is not refused on the line by the question, and neither before.
    fn assert_confirmed(house: House, number: usize, refusal: &Refusal, hint: &hints::Hint) {
        let Some(next) = (match refusal.place() {
            Place::Unit(_) | Place::Rule(_) => hints::tests::refusal(house, &hint.text),
            _ if house == House::Ours => told::read(&hint.text).err(),
            _ => told::read_partner(&hint.text).err(),
        }) else {
            return;
        };
        assert!(Reach::of(&next) > hint.past, "{next}: {hint:?}");
        match (hint.past, refusal.place()) {
            (past, _) if past == Reach::of(refusal) => assert!(next.question() != refusal.question() || next.line() > refusal.line(), "{next}: {hint:?}"),
            // Lines before it were put in or left out.
            (Reach::Line(line, _), Place::Line(_)) => assert!(line.abs_diff(number) == 1 && next.line() >= line, "{next}: {hint:?}"),
            other => panic!("{other:?}"),
        }
        if let Some(anew) = &hint.line {
            assert_eq!(line(&hint.text, number), Some(&anew[..]), "{hint:?}");
            assert!(Reach::of(&next) > Reach::Line(number, usize::MAX), "{next}: {hint:?}");
        }
    }

    #[test]
    fn random_slips() {
        let (mut random, mut refused, mut hinted) = (Random(0x9e37_79b9_7f4a_7c15), 0, std::collections::BTreeMap::new());
        for i in 0..20_000 {
            let (house, text) = if i % 3 == 0 { (House::Partner, THEIRS) } else { (House::Ours, OURS) };
            let text = random.slips(text);
            let Some(refusal) = hints::tests::refusal(house, &text) else { continue };
            let (said, number) = (words("x", house, &text, &refusal), Case::of(house, &text, &refusal).number);
            assert_printable(&said);
            assert!(said.contains(&format!("--> {}\n", placed("x", number))), "{said}");
            assert!(matches!(refusal.place(), Place::Unit(_) | Place::Rule(_)) || number == refusal.line(), "{refusal}: {said}");
            refused += 1;
            if let Some(hint) = hints::hint(house, &text, &refusal) {
                assert!(said.contains(&hint.says), "{said}");
                assert_confirmed(house, number, &refusal, &hint);
                *hinted.entry(hint.id).or_insert(0) += 1;
            }
        }
        println!("{refused} refused, {} hints: {hinted:?}", hinted.values().sum::<usize>());
        assert!(refused > 10_000 && hinted.len() > 20, "{refused}: {hinted:?}");
    }

    #[test]
    fn random_slips_of_two() {
        let mut random = Random(0x2545_f491_4f6c_dd1d);
        let other = b"(note the other site)\n(sheet 7)\n(rule (slots 2 2) (count 0 1))\n(rule (slots 1 3) (count 1 2))\n(unit 40 (window 2 3))\n";
        for _ in 0..5_000 {
            let (one, two) = (random.slips(OURS), if random.below(3) > 0 { other.to_vec() } else { random.slips(other) });
            let Err(refusal) = told::merge(&one, &two) else { continue };
            let said = words_of_two(["x", "y"], [&one, &two], &refusal);
            assert_printable(&said);
            let name = ["x", "y"][refusal.text(&one).unwrap() - 1];
            assert!(said.contains(&format!("--> {}\n", placed(name, refusal.line()))), "{refusal}: {said}");
        }
    }
}
