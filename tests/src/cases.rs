//! P1 to P12, with their answers (docs/RULES.md, "Sheets to try"), sheets for which the looks of seating are counted by hand, and two sheets that
//! are merged.

use crate::sheet::Sheet;

#[derive(Clone, Debug, PartialEq, Eq)]
pub enum Says {
    /// The plan, and the narrowed windows.
    Plan(Vec<u16>, Vec<(u16, u16)>),
    /// The ring, where the document gives one, and the shortfall.
    None(Option<Vec<u16>>, i64),
}

#[derive(Clone, Debug)]
pub struct Case {
    pub name: &'static str,
    pub sheet: Sheet,
    pub says: Says,
}

fn plan(slots: &[u16], windows: &[(u16, u16)]) -> Says {
    Says::Plan(slots.to_vec(), windows.to_vec())
}

pub fn all() -> Vec<Case> {
    let case = |name, sheet, says| Case { name, sheet, says };
    vec![
        case(
            "P1",
            Sheet::new(
                7,
                &[(1, 4), (2, 5), (4, 7)],
                &[(1, 3, 1, 2), (2, 4, 0, 2), (3, 7, 2, 3), (6, 6, 0, 1)],
            ),
            plan(&[1, 3, 4], &[(1, 4), (2, 5), (4, 7)]),
        ),
        case(
            "P2",
            Sheet::new(4, &[(1, 2), (1, 4)], &[(1, 2, 1, 1), (2, 3, 1, 1), (3, 4, 1, 1)]),
            plan(&[1, 3], &[(1, 2), (3, 4)]),
        ),
        case(
            "P3",
            Sheet::new(5, &[(1, 3), (2, 5)], &[(2, 3, 1, 1), (3, 4, 1, 1), (4, 5, 1, 1)]),
            plan(&[2, 4], &[(2, 3), (4, 5)]),
        ),
        case("P4", Sheet::new(3, &[(1, 3), (1, 3)], &[(1, 3, 1, 1)]), Says::None(Some(vec![0, 3]), 1)),
        case(
            "P5",
            Sheet::new(3, &[(1, 2), (2, 3)], &[(1, 2, 0, 1), (2, 2, 1, 2), (2, 3, 0, 1)]),
            Says::None(Some(vec![0, 2, 1, 3]), 1),
        ),
        case("P6", Sheet::new(3, &[(1, 3), (1, 1)], &[(1, 1, 1, 1)]), plan(&[2, 1], &[(2, 3), (1, 1)])),
        case("P7", Sheet::new(1, &[], &[]), plan(&[], &[])),
        case("P8", Sheet::new(1, &[], &[(1, 1, 1, 1)]), Says::None(None, 1)),
        case("P9", Sheet::new(2, &[(1, 2), (1, 2)], &[(1, 1, 0, 1), (1, 1, 1, 2)]), plan(&[1, 2], &[(1, 2), (1, 2)])),
        case(
            "P10",
            Sheet::new(3, &[(1, 3), (1, 3)], &[(2, 2, 1, 1), (3, 3, 1, 1)]),
            plan(&[2, 3], &[(2, 3), (2, 3)]),
        ),
        case("P11", Sheet::new(2, &[(1, 2), (1, 3)], &[(1, 2, 0, 1)]), plan(&[1, 3], &[(1, 2), (3, 3)])),
        case("P12", Sheet::new(3, &[(1, 4), (1, 4)], &[(1, 3, 1, 1)]), plan(&[1, 4], &[(1, 4), (1, 4)])),
    ]
}

/// The case of this name.
pub fn named(name: &str) -> Case {
    all().into_iter().find(|case| case.name == name).expect("a case")
}

/// How many units seating looks at in P1 to P12: in P1 three slots end with the places 1, 2 and 3, in the others two with 1 and 2. P7 has no
/// unit, and P4, P5 and P8 no plan.
pub const LOOKED: [(&str, usize); 12] = [
    ("P1", 6), ("P2", 3), ("P3", 3), ("P4", 0), ("P5", 0), ("P6", 3), ("P7", 0), ("P8", 0), ("P9", 3), ("P10", 3), ("P11", 3), ("P12", 3),
];

/// Sheets that tell a count of looks from those that are easily taken for it, each with its plan and its number. What is added up are the
/// places of the last unit of each slot, in the order of all units by closing slot and then by line.
pub fn looked_at() -> Vec<(&'static str, Sheet, Option<Vec<u16>>, usize)> {
    // One unit for each of the slots 1 to 47, on the last line first, and 253 that open in slot 48, which takes all but one of them.
    let falling: Vec<(u16, u16)> = (1..=300).map(|line: u16| ((301 - line).min(48), 49)).collect();
    let furthest: Vec<u16> = (1..=300).map(|line| if line == 253 { 49 } else { (301 - line).min(48) }).collect();
    vec![
        // The order is 2, 3, 1: slot 1 ends with unit 3, in place 2, slot 2 with unit 1, in place 3. By line it would be 3 and 1.
        ("closing slots go before lines", Sheet::new(3, &[(1, 3), (1, 1), (1, 1)], &[(1, 1, 0, 2)]), Some(vec![2, 1, 1]), 2 + 3),
        // The order is that of the lines: slot 1 ends with unit 3, slot 2 with unit 2. By loader number, or with later lines first, it would be
        // 1 and 3.
        ("ties go by line", Sheet::new(3, &[(2, 3), (2, 3), (1, 3)], &[]).numbered(&[30, 20, 10]), Some(vec![2, 2, 1]), 3 + 2),
        // Units 1 and 2 close first and open in slot 2: for slot 1 they are looked at too.
        ("units that are not open yet", Sheet::new(3, &[(2, 2), (2, 2), (1, 3)], &[]), Some(vec![2, 2, 1]), 3 + 2),
        // Slot 1 takes four, the others one each and pass those that are seated. Without these it would be 4, 1 and 1, and from 0 on 3, 4 and 5.
        (
            "units that are seated",
            Sheet::new(3, &[(1, 3); 6], &[(1, 1, 0, 4), (2, 2, 0, 1)]),
            Some(vec![1, 1, 1, 1, 2, 3]),
            4 + 5 + 6,
        ),
        // The same with the last one carried: without the carried place it would be 4 and 5.
        (
            "the carried place",
            Sheet::new(2, &[(1, 3); 6], &[(1, 1, 0, 4), (2, 2, 0, 1)]),
            Some(vec![1, 1, 1, 1, 2, 3]),
            4 + 5 + 6,
        ),
        // Neither slot takes a unit, and the carried place all three.
        ("units that are all carried", Sheet::new(2, &[(1, 3); 3], &[(1, 2, 0, 0)]), Some(vec![3, 3, 3]), 3),
        // The slots 1 and 3 take a unit each; 2 is shut and 4 not needed. A search for one of them would look at both units.
        ("empty slots", Sheet::new(4, &[(1, 4), (2, 4)], &[(2, 2, 0, 0)]), Some(vec![1, 3]), 1 + 2),
        // The order is 3, 1, 2: slot 1 ends with unit 3, slot 4 with unit 1, and unit 2 is carried.
        ("empty slots before the carried place", Sheet::new(6, &[(4, 6), (4, 7), (1, 2)], &[(4, 6, 0, 1)]), Some(vec![4, 7, 1]), 1 + 2 + 3),
        // 300, 299 down to 254, then 252 and 253: no sheet has more looks, since no unit is the last of two slots.
        ("the most looks there can be", Sheet::new(48, &falling, &[(48, 48, 0, 252)]), Some(furthest), (252..=300).sum()),
        ("no unit", Sheet::new(48, &[], &[(1, 48, 0, 0)]), Some(vec![]), 0),
        ("none", Sheet::new(3, &[(1, 3); 3], &[(1, 3, 0, 2)]), None, 0),
    ]
}

/// The cases whose pages are known byte for byte, with their pages.
pub const PAGES: [(&str, &str); 4] = [("P2", P2_PAGE), ("P4", P4_PAGE), ("P11", P11_PAGE), ("P12", P12_PAGE)];

/// The same of the question whether they fit; of P4 there is no plan.
pub const FITS_PAGES: [(&str, &str); 5] =
    [("P2", P2_FITS_PAGE), ("P4", P4_PAGE), ("P7", P7_FITS_PAGE), ("P11", P11_FITS_PAGE), ("P12", P12_FITS_PAGE)];

/// P2's page, byte for byte as docs/RULES.md prints it.
pub const P2_PAGE: &str = "(answer plan 2)
(unit 1 (slot 1) (between 1 2))
(unit 2 (slot 3) (between 3 4))
(slot 1 (count 1) (range 0 1))
(slot 2 (count 0) (range 0 1))
(slot 3 (count 1) (range 0 1))
(slot 4 (count 0) (range 0 1))
";

/// P4's page, put together from the same section's lines.
pub const P4_PAGE: &str = "(answer none)
(at-most 1 (slots 1 3))
(at-least 2 (slots 1 3))
(shortfall 1)
";

/// P11's page: the second unit must be carried.
pub const P11_PAGE: &str = "(answer plan 2)
(unit 1 (slot 1) (between 1 2))
(unit 2 (carried) (between 3 3))
(slot 1 (count 1) (range 0 1))
(slot 2 (count 0) (range 0 1))
";

/// P12's page, byte for byte as docs/RULES.md prints it: P4 has a plan where its windows reach into the next wave.
pub const P12_PAGE: &str = "(answer plan 2)
(unit 1 (slot 1) (between 1 4))
(unit 2 (carried) (between 1 4))
(slot 1 (count 1) (range 0 1))
(slot 2 (count 0) (range 0 1))
(slot 3 (count 0) (range 0 1))
";

/// P2 fits, byte for byte as docs/RULES.md prints it.
pub const P2_FITS_PAGE: &str = "(answer fits 2)
(slot 1 (range 0 1))
(slot 2 (range 0 1))
(slot 3 (range 0 1))
(slot 4 (range 0 1))
";

/// P7 has a slot and no unit.
pub const P7_FITS_PAGE: &str = "(answer fits 0)
(slot 1 (range 0 0))
";

/// P11 and P12 carry a unit; the carried place has no line.
pub const P11_FITS_PAGE: &str = "(answer fits 2)
(slot 1 (range 0 1))
(slot 2 (range 0 1))
";

pub const P12_FITS_PAGE: &str = "(answer fits 2)
(slot 1 (range 0 1))
(slot 2 (range 0 1))
(slot 3 (range 0 1))
";

/// Two sheets that share a stretch, and what they become.
pub const PAIR: (&str, &str) = (
    "(sheet 7)
(unit 4017 (window 1 4))
(rule (slots 1 3) (count 0 5))
(unit 12 (window 7 8))
",
    "(note the other site)
(sheet 7)
(rule (slots 2 2) (count 0 1))
(rule (slots 1 3) (count 1 2))
(unit 40 (window 2 3))
",
);
pub const MERGED: &str = "(sheet 7)
(unit 4017 (window 1 4))
(unit 12 (window 7 8))
(unit 40 (window 2 3))
(rule (slots 1 3) (count 1 2))
(rule (slots 2 2) (count 0 1))
";
