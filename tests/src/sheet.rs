//! Sheets, the limits of steps between boundaries, rings, and how many units seating looks at, as docs/RULES.md defines them.

use crate::house::House;

/// The sheet's sizes (docs/RULES.md, "Units, windows, rules").
pub const MAX_SLOTS: usize = 48;
pub const MAX_UNITS: usize = 300;
pub const MAX_RULES: usize = 60;
pub const MAX_COUNT: u16 = 300;
pub const MAX_LOADER: u16 = 9_999;

/// The place behind the last slot of a span, where a unit is carried over into the next wave.
pub fn carried_place(span: usize) -> usize {
    span + 1
}

#[derive(Clone, Copy, Debug, PartialEq, Eq)]
pub struct Unit {
    pub loader: u16,
    pub first: u16,
    pub last: u16,
}

#[derive(Clone, Copy, Debug, PartialEq, Eq)]
pub struct Rule {
    pub from: u16,
    pub to: u16,
    pub low: u16,
    pub high: u16,
}

#[derive(Clone, Debug, PartialEq, Eq)]
pub struct Sheet {
    pub span: usize,
    pub units: Vec<Unit>,
    pub rules: Vec<Rule>,
}

/// What a plan leaves: the plan, the narrowed windows, and the table, row by row. A carried unit has the carried place for its slot.
#[derive(Clone, Debug, PartialEq, Eq)]
pub struct Solved {
    pub plan: Vec<u16>,
    pub earliest: Vec<u16>,
    pub latest: Vec<u16>,
    pub table: Vec<i16>,
}

impl Unit {
    pub fn window(&self) -> (u16, u16) {
        (self.first, self.last)
    }
}

impl Sheet {
    /// A sheet whose units are numbered 1, 2, .. by line.
    pub fn new(span: usize, windows: &[(u16, u16)], rules: &[(u16, u16, u16, u16)]) -> Sheet {
        Sheet {
            span,
            units: windows.iter().zip(1..).map(|(&(first, last), loader)| Unit { loader, first, last }).collect(),
            rules: rules.iter().map(|&(from, to, low, high)| Rule { from, to, low, high }).collect(),
        }
    }

    /// The same sheet with these loader numbers, line by line.
    pub fn numbered(mut self, loaders: &[u16]) -> Sheet {
        assert_eq!(loaders.len(), self.units.len(), "a number for each unit");
        self.units.iter_mut().zip(loaders).for_each(|(unit, &loader)| unit.loader = loader);
        self
    }

    pub fn loaders(&self) -> Vec<u16> {
        self.units.iter().map(|u| u.loader).collect()
    }

    pub fn carried_place(&self) -> usize {
        carried_place(self.span)
    }

    /// The number of boundaries, 0 to the end of the carried place.
    pub fn boundaries(&self) -> usize {
        self.carried_place() + 1
    }

    /// The slot of a place, and nothing for the carried place.
    pub fn slot_at(&self, place: u16) -> Option<u16> {
        (place as usize != self.carried_place()).then_some(place)
    }

    /// The same sheet with no window past the end of the wave.
    pub fn cut_to_span(&self) -> Sheet {
        let cut = |u: &Unit| Unit { last: u.last.min(self.span as u16), ..*u };
        Sheet { units: self.units.iter().map(cut).collect(), ..self.clone() }
    }

    /// The same sheet, as this house can have it: the partner's windows end inside the wave, and its lows are 0.
    pub fn kept_by(&self, house: House) -> Sheet {
        match house {
            House::Ours => self.clone(),
            House::Partner => {
                let sheet = self.cut_to_span();
                Sheet { rules: sheet.rules.iter().map(|r| Rule { low: 0, ..*r }).collect(), ..sheet }
            }
        }
    }

    /// The number of windows inside the stretch a+1 to b.
    pub fn windows_inside(&self, a: usize, b: usize) -> usize {
        self.units.iter().filter(|u| a < u.first as usize && u.last as usize <= b).count()
    }

    fn rules_on(&self, a: usize, b: usize) -> impl Iterator<Item = &Rule> {
        self.rules.iter().filter(move |r| r.from as usize == a + 1 && r.to as usize == b)
    }

    /// The limit of the step from boundary a to boundary b.
    pub fn limit(&self, a: usize, b: usize) -> i64 {
        if a < b {
            self.rules_on(a, b).map(|r| r.high as i64).fold(self.units.len() as i64, i64::min)
        } else if a > b {
            -self.rules_on(b, a).map(|r| r.low as i64).fold(self.windows_inside(b, a) as i64, i64::max)
        } else {
            0
        }
    }

    /// All limits, row by row.
    pub fn limits(&self) -> Vec<i64> {
        let w = self.boundaries();
        (0..w * w).map(|i| self.limit(i / w, i % w)).collect()
    }

    /// The steps of a closed list of boundaries, the one back to its front last.
    pub fn steps(ring: &[u16]) -> Vec<(usize, usize)> {
        (0..ring.len()).map(|i| (ring[i] as usize, ring[(i + 1) % ring.len()] as usize)).collect()
    }

    /// The sum of a closed list's limits.
    pub fn ring_sum(&self, ring: &[u16]) -> i64 {
        Sheet::steps(ring).into_iter().map(|(a, b)| self.limit(a, b)).sum()
    }

    /// Is this a ring of the sheet, given from its lowest boundary on? Says why not.
    pub fn ring_fault(&self, ring: &[u16]) -> Option<String> {
        if ring.len() < 2 {
            return Some(format!("{} boundaries", ring.len()));
        }
        if let Some(b) = ring.iter().find(|&&b| b as usize >= self.boundaries()) {
            return Some(format!("{b} is no boundary"));
        }
        if (1..ring.len()).any(|i| ring[..i].contains(&ring[i])) {
            return Some("a boundary twice".into());
        }
        if ring.iter().any(|&b| b < ring[0]) {
            return Some("the lowest boundary is not first".into());
        }
        let sum = self.ring_sum(ring);
        (sum >= 0).then(|| format!("the limits add up to {sum}"))
    }

    /// Each unit's place, from 1, in the order of all units by closing slot and then by line.
    fn places(&self) -> Vec<usize> {
        let mut order: Vec<usize> = (0..self.units.len()).collect();
        order.sort_by_key(|&line| (self.units[line].last, line));
        let mut places = vec![0; order.len()];
        order.into_iter().zip(1..).for_each(|(line, place)| places[line] = place);
        places
    }

    /// How many units seating looks at, where this is the printed plan: the sum, over the slots and the carried place, of the highest place
    /// that one of their units has. Where none sits it is 0.
    pub fn looked(&self, plan: &[u16]) -> usize {
        let places = self.places();
        let highest = |slot: usize| (0..plan.len()).filter(|&i| plan[i] as usize == slot).map(|i| places[i]).max().unwrap_or(0);
        (1..=self.carried_place()).map(highest).sum()
    }

    /// The sheet in its text form, no notes.
    pub fn text(&self) -> Vec<u8> {
        self.text_for(House::Ours)
    }

    /// The sheet in a house's form, no notes. The partner's says nothing of lows, and its hours may go past the day.
    pub fn text_for(&self, house: House) -> Vec<u8> {
        let mut text = match house {
            House::Ours => format!("(sheet {})\n", self.span),
            House::Partner => format!("(day {})\n", self.span),
        };
        for Unit { loader, first, last } in &self.units {
            text += &match house {
                House::Ours => format!("(unit {loader} (window {first} {last}))\n"),
                House::Partner => format!("(job {loader} (start {first}) (hours {}))\n", last - first + 1),
            };
        }
        for Rule { from, to, low, high } in &self.rules {
            text += &match house {
                House::Ours => format!("(rule (slots {from} {to}) (count {low} {high}))\n"),
                House::Partner => format!("(limit (from {from}) (hours {}) (most {high}))\n", to - from + 1),
            };
        }
        text.into_bytes()
    }
}
