//! A wave to look at: the sheet and its answer as one SVG document that needs nothing else.
//!
//! Three blocks stand over one another on the same columns, a column a slot: the units, then how full the slots are or, where there is no plan,
//! the ring, then the rules. [`Layout`] alone knows where a slot, a unit or a block lies; the functions after it draw one thing each. What a
//! mark means never hangs on its colour: fills, hatching, widths and dashes tell marks apart in black and white too.

use tugrokt::told::{Answer, Bound, Limit, Ring, Source};
use tugrokt::{Plan, Sheet};

// Sizes, in pixels of the natural size.

/// Free on all four sides.
const MARGIN: i32 = 16;
/// Where the columns begin: loader numbers and row labels stand left of them.
const PLOT: i32 = 84;
/// Free between the columns and a label beside them.
const LABEL_GAP: i32 = 6;
/// Right of wide charts loader numbers stand again.
const RIGHT_LABELS: i32 = 34;
/// From this many columns on a chart is wide.
const WIDE: i32 = 20;
/// What the slots' columns share, and how narrow and how wide each may be.
const COLUMNS: i32 = 960;
const NARROWEST_COLUMN: i32 = 22;
const WIDEST_COLUMN: i32 = 100;
/// The carried place stands off by this, and is wide enough for its name.
const SET_OFF: i32 = 10;
const CARRIED_COLUMN: i32 = 52;
/// Room for the headings and the legend, however few columns there are.
const NARROWEST_CHART: i32 = 560;

const TITLE: i32 = 16;
const HEADING: i32 = 12;
const TEXT: i32 = 10;
const SMALL: i32 = 9;

const TITLE_LINE: i32 = 22;
const HEADING_LINE: i32 = 20;
const LEGEND_LINE: i32 = 18;
const LEGEND_MARK: i32 = 28;
const LEGEND_GAP: i32 = 18;
/// A line of slot numbers.
const RULER: i32 = 16;
/// After so many units the slot numbers stand again, so that a screen of a tall chart has them.
const STRIP: i32 = 50;
/// Free between blocks.
const BLOCK_GAP: i32 = 22;
/// A line of words inside a block.
const WORDS_LINE: i32 = 22;
/// The bars of the counts, and the lines of numbers under them.
const BARS: i32 = 90;
const NUMBERS_GAP: i32 = 4;
const NUMBER_LINE: i32 = 14;
const NUMBERS: i32 = NUMBERS_GAP + 3 * NUMBER_LINE;
/// A row of rules or of the ring: a label and, this far below the row's top, what it labels.
const BRACKET_ROW: i32 = 25;
const BRACKET_LINE: i32 = 16;
const TICK: i32 = 5;
/// Free between neighbours in a row of rules.
const BRACKET_GAP: i32 = 4;

// Styles, as attributes of a group.

const INK: &str = r##"fill="#111""##;
/// Keeps a text free of lines behind it.
const HALO: &str = r##"stroke="#fff" stroke-width="3" paint-order="stroke""##;
const FAINT_INK: &str = r##"fill="#555""##;
const HAIRLINE: &str = r##"fill="none" stroke="#dcdcdc" pointer-events="none" shape-rendering="crispEdges""##;
const FIFTH_LINE: &str = r##"fill="none" stroke="#a8a8a8" pointer-events="none" shape-rendering="crispEdges""##;
const WINDOW: &str = r##"fill="#f0f0f0" stroke="#8a8a8a" shape-rendering="crispEdges""##;
const SETTING_WINDOW: &str = r##"fill="url(#dense)" stroke="#7a1710" stroke-width="2" shape-rendering="crispEdges""##;
const NARROWED: &str = r##"fill="url(#hatch)" stroke="#2b5c94" pointer-events="none" shape-rendering="crispEdges""##;
const SEAT: &str = r##"fill="#0d2c52" pointer-events="none" shape-rendering="crispEdges""##;
const COUNT: &str = r##"fill="#bccfe4" stroke="#2b5c94" shape-rendering="crispEdges""##;
const WHISKER: &str = r##"fill="none" stroke="#000" stroke-width="2" shape-rendering="crispEdges""##;
const RULE: &str = r##"fill="none" stroke="#555" shape-rendering="crispEdges""##;
const BINDING_RULE: &str = r##"fill="none" stroke="#000" stroke-width="3" shape-rendering="crispEdges""##;
const SETTING_RULE: &str = r##"fill="none" stroke="#7a1710" stroke-width="4" shape-rendering="crispEdges""##;
const RING_LINK: &str = r##"fill="none" stroke="#7a1710" stroke-dasharray="1 3" shape-rendering="crispEdges""##;
const MOST_ARROW: &str = r##"fill="none" stroke="#7a1710" stroke-width="4""##;
const LEAST_ARROW: &str = r##"fill="none" stroke="#7a1710" stroke-width="4" stroke-dasharray="6 3""##;
const ARROW_HEAD: &str = r##"fill="#7a1710""##;
/// The hatching of narrowed windows, and the denser one, the other way, of windows in the ring.
const HATCHES: &str = r##"<defs>
<pattern id="hatch" width="5" height="5" patternUnits="userSpaceOnUse" patternTransform="rotate(45)">
<rect width="5" height="5" fill="#e3edf8"/><rect width="2" height="5" fill="#7ea3cd"/>
</pattern>
<pattern id="dense" width="4" height="4" patternUnits="userSpaceOnUse" patternTransform="rotate(-45)">
<rect width="4" height="4" fill="#fff"/><rect width="2" height="4" fill="#b5655f"/>
</pattern>
</defs>"##;

/// The chart of a sheet and its answer.
pub fn chart(title: &str, sheet: &Sheet, answer: &Answer) -> String {
    let (layout, summary) = (Layout::of(sheet, answer), summary(sheet, answer));
    let mut svg = Svg::default();
    open(&mut svg, &layout, title, &summary);
    draw_head(&mut svg, &layout, title, &summary);
    draw_legend(&mut svg, &layout);
    draw_units(&mut svg, &layout, sheet, answer);
    match answer {
        Answer::Plan(plan) => draw_counts(&mut svg, &layout, plan),
        Answer::None(ring) => draw_ring(&mut svg, &layout, sheet, ring),
    }
    draw_rules(&mut svg, &layout);
    svg.put("</svg>");
    svg.0
}

// The document.

/// An SVG document as it grows, an element a line.
#[derive(Default)]
struct Svg(String);

impl Svg {
    /// A line of the document.
    fn put(&mut self, line: &str) {
        self.0.push_str(line);
        self.0.push('\n');
    }

    /// A group with these attributes and what `draw` draws.
    fn group(&mut self, attributes: &str, draw: impl FnOnce(&mut Svg)) {
        self.put(&format!("<g {attributes}>"));
        draw(self);
        self.put("</g>");
    }

    /// A box.
    fn rect(&mut self, Rect { left, top, right, bottom }: Rect) {
        self.put(&format!(r#"<rect x="{left}" y="{top}" width="{}" height="{}"/>"#, right - left, bottom - top));
    }

    /// A box that says what it is where one points at it.
    fn telling_rect(&mut self, Rect { left, top, right, bottom }: Rect, tells: &str) {
        let (width, height) = (right - left, bottom - top);
        self.put(&format!(r#"<rect x="{left}" y="{top}" width="{width}" height="{height}"><title>{tells}</title></rect>"#));
    }

    /// Lines along a path.
    fn path(&mut self, along: &str) {
        self.put(&format!(r#"<path d="{along}"/>"#));
    }

    /// A text from this place on, or about it, or up to it, as its group has it.
    fn text(&mut self, x: i32, y: i32, text: &str) {
        self.put(&format!(r#"<text x="{x}" y="{y}">{}</text>"#, escaped(text)));
    }
}

/// A box by its four sides.
#[derive(Clone, Copy)]
struct Rect {
    left: i32,
    top: i32,
    right: i32,
    bottom: i32,
}

/// A text as XML has it. Characters that XML has not, or that no font has, are shown as the replacement character.
fn escaped(text: &str) -> String {
    let mut safe = String::new();
    for c in text.chars() {
        match c {
            '&' => safe.push_str("&amp;"),
            '<' => safe.push_str("&lt;"),
            '>' => safe.push_str("&gt;"),
            '"' => safe.push_str("&quot;"),
            '\u{fffe}' | '\u{ffff}' => safe.push('\u{fffd}'),
            c if c.is_control() => safe.push('\u{fffd}'),
            c => safe.push(c),
        }
    }
    safe
}

/// How wide a text is at most. Which font a reader has is not known: this holds for wide ones.
fn width_of(text: &str, size: i32) -> i32 {
    (text.chars().map(hundredths).sum::<i32>() * size + 99) / 100
}

/// How wide a character is at most, in hundredths of the size.
fn hundredths(c: char) -> i32 {
    match c {
        ' ' | ',' | '.' | ':' | ';' | '\'' | '|' | 'f' | 'i' | 'j' | 'l' | 'r' | 't' => 42,
        'm' | 'w' | 'M' | 'W' | '@' | '%' => 100,
        'A'..='Z' => 80,
        c if c.is_ascii() || c == '–' => 64,
        _ => 100,
    }
}

/// As much of a text's end as there is room for: of a path the end tells most.
fn shortened(text: &str, size: i32, room: i32) -> String {
    if width_of(text, size) <= room {
        return text.to_string();
    }
    let mut end = text.chars();
    while width_of(end.as_str(), size) + size > room && end.next().is_some() {}
    format!("…{}", end.as_str())
}

/// A number of things in words.
fn many(number: usize, thing: &str) -> String {
    format!("{number} {thing}{}", if number == 1 { "" } else { "s" })
}

/// Two ends of a range of counts.
fn range_text(low: u16, high: u16) -> String {
    if low == high { low.to_string() } else { format!("{low}–{high}") }
}

// Where everything lies.

/// Where slots, units and blocks lie.
struct Layout {
    across: Columns,
    width: i32,
    height: i32,
    /// The place of each legend entry, and the entry.
    legend: Vec<(i32, i32, Entry)>,
    /// How many units there are, and how high the row of each is.
    units: i32,
    row: i32,
    units_top: i32,
    units_bottom: i32,
    /// The counts or the ring.
    middle_top: i32,
    /// The rules in their rows, and the top of the first row.
    brackets: Vec<Bracket>,
    rules_top: i32,
    rules_bottom: i32,
}

/// Where slots lie across.
struct Columns {
    span: i32,
    column: i32,
    /// Is there a column for the carried place?
    carried: bool,
}

impl Columns {
    /// The columns of a sheet: the carried place has one where a window, or a limit of the ring, reaches it.
    fn of(sheet: &Sheet, answer: &Answer) -> Columns {
        let span = sheet.span as i32;
        let past = |last: &u16| i32::from(*last) > span;
        let in_ring = matches!(answer, Answer::None(ring) if ring.limits.iter().any(|limit| past(&limit.last)));
        Columns { span, column: (COLUMNS / span.max(1)).clamp(NARROWEST_COLUMN, WIDEST_COLUMN), carried: in_ring || sheet.last.iter().any(past) }
    }

    /// The last place that has a column.
    fn last(&self) -> i32 {
        self.span + i32::from(self.carried)
    }

    /// The left side of a place's column.
    fn left(&self, place: i32) -> i32 {
        PLOT + (place - 1) * self.column + if place > self.span { SET_OFF } else { 0 }
    }

    /// The right side of a place's column.
    fn right(&self, place: i32) -> i32 {
        self.left(place) + if place > self.span { CARRIED_COLUMN } else { self.column }
    }

    /// The middle of a place's column.
    fn middle(&self, place: i32) -> i32 {
        (self.left(place) + self.right(place)) / 2
    }

    /// The right side of all columns.
    fn end(&self) -> i32 {
        self.right(self.last())
    }

    /// The end of a slot as a boundary, 0 for the start of the first. The carried place stands off: the boundary before it lies between.
    fn boundary(&self, slot: i32) -> i32 {
        match slot {
            0 => self.left(1),
            b if b == self.span && self.carried => self.right(b) + SET_OFF / 2,
            b => self.right(b),
        }
    }

    /// Are labels wanted on both sides?
    fn wide(&self) -> bool {
        self.last() >= WIDE
    }

    /// The width of the whole chart.
    fn chart_width(&self) -> i32 {
        let labels = if self.wide() { RIGHT_LABELS } else { 0 };
        (self.end() + labels + MARGIN).max(NARROWEST_CHART)
    }
}

impl Layout {
    /// The layout of a sheet's chart, block after block from above.
    fn of(sheet: &Sheet, answer: &Answer) -> Layout {
        let across = Columns::of(sheet, answer);
        let width = across.chart_width();
        let units = sheet.loader.len() as i32;
        let row = row_height(units);
        let legend = legend_places(legend_of(answer), width);
        let legend_bottom = legend.last().map_or(0, |(_, y, _)| y + LEGEND_LINE);
        let units_top = legend_bottom + BLOCK_GAP / 2 + HEADING_LINE + RULER;
        let units_bottom = units_top + if units == 0 { WORDS_LINE } else { units * row + (units - 1) / STRIP * RULER };
        let middle_top = units_bottom + RULER + BLOCK_GAP + HEADING_LINE;
        let rules_top = middle_top + middle_height(answer) + BLOCK_GAP + HEADING_LINE;
        let brackets = packed(brackets_of(sheet, answer, &across));
        let rows = brackets.iter().map(|bracket| bracket.row + 1).max();
        let rules_bottom = rules_top + rows.map_or(WORDS_LINE, |rows| rows * BRACKET_ROW);
        let height = rules_bottom + RULER + MARGIN;
        Layout { across, width, height, legend, units, row, units_top, units_bottom, middle_top, brackets, rules_top, rules_bottom }
    }

    /// The top of a unit's row. Lines of slot numbers stand between.
    fn unit(&self, index: i32) -> i32 {
        self.units_top + index * self.row + index / STRIP * RULER
    }

    /// The bar of a unit's row over these places, free of the grid and of its neighbours.
    fn bar(&self, index: i32, first: u16, last: u16) -> Rect {
        let top = self.unit(index) + 1;
        Rect { left: self.across.left(first.into()) + 1, top, right: self.across.right(last.into()) - 1, bottom: top + self.row - 3 }
    }

    /// How far below a row's top its texts stand.
    fn baseline(&self) -> i32 {
        (self.row + self.text_size() * 7 / 10) / 2
    }

    /// The size of the texts in the rows of units.
    fn text_size(&self) -> i32 {
        if self.row > SMALL + 4 { TEXT } else { SMALL }
    }
}

/// How high a unit's row is: low enough for many units, and never lower than its loader number.
fn row_height(units: i32) -> i32 {
    match units {
        0..=40 => 18,
        41..=120 => 14,
        _ => SMALL + 2,
    }
}

/// How high the counts or the ring are.
fn middle_height(answer: &Answer) -> i32 {
    match answer {
        Answer::Plan(_) => BARS + NUMBERS,
        Answer::None(ring) => ring.limits.len() as i32 * BRACKET_ROW + WORDS_LINE,
    }
}

// The head and the legend.

/// Opens the document: its size, its title and what it shows for readers aloud, and a white ground, which prints and shows on dark pages.
fn open(svg: &mut Svg, layout: &Layout, title: &str, summary: &str) {
    let (w, h) = (layout.width, layout.height);
    svg.put(r#"<?xml version="1.0" encoding="UTF-8"?>"#);
    svg.put(&format!(r#"<svg xmlns="http://www.w3.org/2000/svg" width="{w}" height="{h}" viewBox="0 0 {w} {h}" role="img""#));
    svg.put(&format!(r#"font-family="sans-serif" font-size="{TEXT}">"#));
    svg.put(&format!("<title>{}</title>", escaped(title)));
    svg.put(&format!("<desc>The wave of a sheet, a column a slot. {summary}.</desc>"));
    svg.put(HATCHES);
    svg.group(r##"fill="#fff""##, |svg| svg.rect(Rect { left: 0, top: 0, right: w, bottom: h }));
}

/// The title, as much of it as fits, and the sheet and its answer in a few words.
fn draw_head(svg: &mut Svg, layout: &Layout, title: &str, summary: &str) {
    let title = shortened(title, TITLE, layout.width - 2 * MARGIN);
    svg.group(&format!(r#"{INK} font-size="{TITLE}" font-weight="bold""#), |svg| svg.text(MARGIN, MARGIN + TITLE - 2, &title));
    svg.group(&format!(r#"{INK} font-size="{HEADING}""#), |svg| svg.text(MARGIN, MARGIN + TITLE_LINE + HEADING, summary));
}

/// The sheet and its answer in a few words.
fn summary(sheet: &Sheet, answer: &Answer) -> String {
    let (units, slots, rules) = (many(sheet.loader.len(), "unit"), many(sheet.span, "slot"), many(sheet.from.len(), "rule"));
    let said = match answer {
        Answer::Plan(plan) => match (0..plan.slot.len()).filter(|&unit| plan.is_carried(unit)).count() {
            0 => "plan".to_string(),
            carried => format!("plan, {carried} carried"),
        },
        Answer::None(ring) => format!("none, shortfall {}", ring.shortfall),
    };
    format!("{units}, {slots}, {rules}: {said}")
}

/// A mark of the chart and what it means.
type Entry = (Mark, &'static str);

/// A mark, in a style.
#[derive(Clone, Copy)]
enum Mark {
    Bar(&'static str),
    Whisker,
    Bracket(&'static str),
    Arrow(Bound),
}

/// The marks that the chart of an answer has.
fn legend_of(answer: &Answer) -> Vec<Entry> {
    match answer {
        Answer::Plan(_) => vec![
            (Mark::Bar(WINDOW), "window"),
            (Mark::Bar(NARROWED), "earliest to latest slot in lawful plans"),
            (Mark::Bar(SEAT), "slot in this plan"),
            (Mark::Bar(COUNT), "deliveries in this plan"),
            (Mark::Whisker, "fewest to most in lawful plans"),
            (Mark::Bracket(RULE), "rule"),
            (Mark::Bracket(BINDING_RULE), "rule that this plan has at its limit"),
        ],
        Answer::None(_) => vec![
            (Mark::Bar(WINDOW), "window"),
            (Mark::Bar(SETTING_WINDOW), "window that sets a limit of the ring"),
            (Mark::Arrow(Bound::AtMost), "at most"),
            (Mark::Arrow(Bound::AtLeast), "at least"),
            (Mark::Bracket(RULE), "rule"),
            (Mark::Bracket(SETTING_RULE), "rule that sets a limit of the ring"),
        ],
    }
}

/// The entries in lines that fit the width, each with its left side and the top of its line.
fn legend_places(entries: Vec<Entry>, width: i32) -> Vec<(i32, i32, Entry)> {
    let (mut x, mut y) = (MARGIN, MARGIN + TITLE_LINE + HEADING_LINE);
    let mut places = Vec::new();
    for entry in entries {
        let wide = LEGEND_MARK + LABEL_GAP + width_of(entry.1, TEXT);
        if x > MARGIN && x + wide > width - MARGIN {
            (x, y) = (MARGIN, y + LEGEND_LINE);
        }
        places.push((x, y, entry));
        x += wide + LEGEND_GAP;
    }
    places
}

/// Each mark and its meaning.
fn draw_legend(svg: &mut Svg, layout: &Layout) {
    for &(x, y, (mark, _)) in &layout.legend {
        draw_mark(svg, mark, Rect { left: x, top: y + 3, right: x + LEGEND_MARK, bottom: y + 14 });
    }
    svg.group(INK, |svg| {
        for &(x, y, (_, meaning)) in &layout.legend {
            svg.text(x + LEGEND_MARK + LABEL_GAP, y + 12, meaning);
        }
    });
}

/// A mark in a box of the legend.
fn draw_mark(svg: &mut Svg, mark: Mark, place: Rect) {
    let middle = (place.top + place.bottom) / 2;
    match mark {
        Mark::Bar(style) => svg.group(style, |svg| svg.rect(place)),
        Mark::Whisker => svg.group(WHISKER, |svg| svg.path(&whisker((place.left + place.right) / 2, place.bottom, place.top))),
        Mark::Bracket(style) => svg.group(style, |svg| svg.path(&bracket(place.left, place.right, middle - 1))),
        Mark::Arrow(Bound::AtMost) => draw_arrow(svg, Bound::AtMost, place.left, place.right, middle),
        Mark::Arrow(Bound::AtLeast) => draw_arrow(svg, Bound::AtLeast, place.right, place.left, middle),
    }
}

// What the blocks share.

/// The heading above a block.
fn draw_heading(svg: &mut Svg, top: i32, heading: &str) {
    svg.group(&format!(r#"{INK} font-size="{HEADING}" font-weight="bold""#), |svg| svg.text(MARGIN, top - LABEL_GAP, heading));
}

/// Words in place of what a sheet has none of.
fn draw_nothing(svg: &mut Svg, layout: &Layout, top: i32, words: &str) {
    svg.group(&format!(r#"{FAINT_INK} font-style="italic""#), |svg| svg.text(layout.across.left(1) + LABEL_GAP, top + WORDS_LINE - 8, words));
}

/// The sides of the columns between two heights: hairlines, and a stronger line after every fifth slot and at both ends.
fn draw_columns(svg: &mut Svg, across: &Columns, top: i32, bottom: i32) {
    let strong = |slot: &i32| slot % 5 == 0 || *slot == across.span;
    let sides = |svg: &mut Svg, slots: Vec<i32>| slots.iter().for_each(|&slot| svg.path(&upright(across.left(slot + 1), top, bottom)));
    let (fifth, other) = (0..across.span).partition(strong);
    svg.group(HAIRLINE, |svg| sides(svg, other));
    svg.group(FIFTH_LINE, |svg| {
        sides(svg, fifth);
        svg.path(&upright(across.right(across.span), top, bottom));
        if across.carried {
            svg.path(&upright(across.left(across.last()), top, bottom));
            svg.path(&upright(across.end(), top, bottom));
        }
    });
}

/// The way of a line straight down.
fn upright(x: i32, top: i32, bottom: i32) -> String {
    format!("M{x} {top}V{bottom}")
}

/// A line of slot numbers, every fifth one bold, and the name of the carried place.
fn draw_ruler(svg: &mut Svg, across: &Columns, top: i32) {
    let numbers = |svg: &mut Svg, slots: Vec<i32>| slots.iter().for_each(|&slot| svg.text(across.middle(slot), top + 12, &slot.to_string()));
    let (fifth, other) = (1..=across.span).partition(|slot| slot % 5 == 0);
    svg.group(&format!(r#"{FAINT_INK} text-anchor="middle""#), |svg| {
        numbers(svg, other);
        if across.carried {
            svg.text(across.middle(across.last()), top + 12, "carried");
        }
    });
    svg.group(&format!(r#"{INK} text-anchor="middle" font-weight="bold""#), |svg| numbers(svg, fifth));
}

// The units.

/// The units: their windows, then the grid over these, then narrowed windows and seats.
fn draw_units(svg: &mut Svg, layout: &Layout, sheet: &Sheet, answer: &Answer) {
    draw_heading(svg, layout.units_top - RULER, "Units, a row each, by loader number");
    let setting = setting_windows(answer, sheet.loader.len());
    draw_windows(svg, layout, sheet, answer, &setting);
    draw_columns(svg, &layout.across, layout.units_top, layout.units_bottom);
    draw_fifth_rows(svg, layout);
    draw_unit_rulers(svg, layout);
    draw_loaders(svg, layout, sheet, &setting);
    match answer {
        Answer::Plan(plan) => draw_seats(svg, layout, plan),
        Answer::None(ring) => draw_boundaries(svg, layout, ring),
    }
    if layout.units == 0 {
        draw_nothing(svg, layout, layout.units_top, "no units");
    }
}

/// For each unit whether its window is one of those that set a limit of the ring.
fn setting_windows(answer: &Answer, units: usize) -> Vec<bool> {
    let mut setting = vec![false; units];
    let limits = if let Answer::None(ring) = answer { &ring.limits[..] } else { &[] };
    for source in limits.iter().flat_map(|limit| &limit.sources) {
        if let Source::Windows(inside) = source {
            inside.iter().for_each(|&unit| setting[unit] = true);
        }
    }
    setting
}

/// All windows, those that set a limit of the ring after the others, so that no neighbour covers their outline.
fn draw_windows(svg: &mut Svg, layout: &Layout, sheet: &Sheet, answer: &Answer, setting: &[bool]) {
    for (style, sets) in [(WINDOW, false), (SETTING_WINDOW, true)] {
        svg.group(style, |svg| {
            for unit in (0..sheet.loader.len()).filter(|&unit| setting[unit] == sets) {
                svg.telling_rect(layout.bar(unit as i32, sheet.first[unit], sheet.last[unit]), &unit_text(sheet, answer, unit));
            }
        });
    }
}

/// A unit in words.
fn unit_text(sheet: &Sheet, answer: &Answer, unit: usize) -> String {
    let window = format!("{}: window {} to {}", sheet.loader[unit], sheet.first[unit], sheet.last[unit]);
    match answer {
        Answer::Plan(plan) if plan.is_carried(unit) => format!("{window}, between {} and {}, carried", plan.earliest[unit], plan.latest[unit]),
        Answer::Plan(plan) => format!("{window}, between {} and {}, slot {}", plan.earliest[unit], plan.latest[unit], plan.slot[unit]),
        Answer::None(_) => window,
    }
}

/// A line under every fifth row, for the eye on its way from a loader number to a bar.
fn draw_fifth_rows(svg: &mut Svg, layout: &Layout) {
    let (left, right) = (layout.across.left(1), layout.across.end());
    svg.group(HAIRLINE, |svg| {
        for unit in (4..layout.units - 1).step_by(5) {
            svg.path(&format!("M{left} {}H{right}", layout.unit(unit) + layout.row));
        }
    });
}

/// Slot numbers above and below the units, and between them where they are many.
fn draw_unit_rulers(svg: &mut Svg, layout: &Layout) {
    draw_ruler(svg, &layout.across, layout.units_top - RULER);
    for unit in (STRIP..layout.units).step_by(STRIP as usize) {
        draw_ruler(svg, &layout.across, layout.unit(unit) - RULER);
    }
    draw_ruler(svg, &layout.across, layout.units_bottom);
}

/// The loader numbers left of their rows, in a wide chart also right of them.
fn draw_loaders(svg: &mut Svg, layout: &Layout, sheet: &Sheet, setting: &[bool]) {
    let sides = [("end", PLOT - LABEL_GAP), ("start", layout.across.end() + LABEL_GAP)];
    for (anchor, x) in &sides[..1 + usize::from(layout.across.wide())] {
        for (weight, sets) in [("normal", false), ("bold", true)] {
            let style = format!(r#"{INK} font-size="{}" font-weight="{weight}" text-anchor="{anchor}""#, layout.text_size());
            svg.group(&style, |svg| {
                for unit in (0..sheet.loader.len()).filter(|&unit| setting[unit] == sets) {
                    svg.text(*x, layout.unit(unit as i32) + layout.baseline(), &sheet.loader[unit].to_string());
                }
            });
        }
    }
}

/// The boundaries that the ring leads through, over the windows.
fn draw_boundaries(svg: &mut Svg, layout: &Layout, ring: &Ring) {
    svg.group(RING_LINK, |svg| {
        for &boundary in &ring.boundaries {
            svg.path(&upright(layout.across.boundary(boundary.into()), layout.units_top, layout.units_bottom));
        }
    });
}

/// The narrowed windows, and the seats on them with their slots.
fn draw_seats(svg: &mut Svg, layout: &Layout, plan: &Plan) {
    let units = || 0..plan.slot.len();
    svg.group(NARROWED, |svg| units().for_each(|unit| svg.rect(layout.bar(unit as i32, plan.earliest[unit], plan.latest[unit]))));
    svg.group(SEAT, |svg| units().for_each(|unit| svg.rect(layout.bar(unit as i32, plan.slot[unit], plan.slot[unit]))));
    let style = format!(r##"fill="#fff" font-size="{}" text-anchor="middle" pointer-events="none""##, layout.text_size());
    svg.group(&style, |svg| {
        for unit in units() {
            let slot = if plan.is_carried(unit) { "carried".to_string() } else { plan.slot[unit].to_string() };
            svg.text(layout.across.middle(plan.slot[unit].into()), layout.unit(unit as i32) + layout.baseline(), &slot);
        }
    });
}

// The counts of a plan.

/// How high counts stand in the block of bars.
struct Scale {
    floor: i32,
    most: i32,
}

impl Scale {
    /// The scale of a plan, up to the most that a lawful plan has in a slot.
    fn of(layout: &Layout, plan: &Plan) -> Scale {
        let most = (1..=layout.across.span).map(|slot| range_of(plan, slot).1).max().unwrap_or(0).max(1);
        Scale { floor: layout.middle_top + BARS, most }
    }

    /// Where a count stands.
    fn height(&self, count: i32) -> i32 {
        self.floor - count * (BARS - TICK) / self.most
    }
}

/// Each slot's count and range, as a bar with a whisker and as numbers.
fn draw_counts(svg: &mut Svg, layout: &Layout, plan: &Plan) {
    let (across, scale) = (&layout.across, Scale::of(layout, plan));
    draw_heading(svg, layout.middle_top, "Deliveries in each slot");
    draw_columns(svg, across, layout.middle_top, scale.floor + NUMBERS);
    draw_levels(svg, across, &scale);
    draw_bars(svg, across, &scale, plan);
    draw_whiskers(svg, across, &scale, plan);
    let line = |line| scale.floor + NUMBERS_GAP + line * NUMBER_LINE - 3;
    draw_numbers(svg, across, line(1), ("this plan", "bold"), |place| count_of(plan, place));
    draw_numbers(svg, across, line(2), ("fewest", "normal"), |place| range_of(plan, place).0);
    draw_numbers(svg, across, line(3), ("most", "normal"), |place| range_of(plan, place).1);
}

/// A bar for each slot that has deliveries. The carried place has numbers alone: it may hold so many that slots would look empty.
fn draw_bars(svg: &mut Svg, across: &Columns, scale: &Scale, plan: &Plan) {
    let inset = across.column / 5;
    svg.group(COUNT, |svg| {
        for slot in (1..=across.span).filter(|&slot| count_of(plan, slot) > 0) {
            let top = scale.height(count_of(plan, slot));
            svg.rect(Rect { left: across.left(slot) + inset, top, right: across.right(slot) - inset, bottom: scale.floor });
        }
    });
}

/// A whisker for each slot, from the fewest to the most.
fn draw_whiskers(svg: &mut Svg, across: &Columns, scale: &Scale, plan: &Plan) {
    svg.group(WHISKER, |svg| {
        for slot in 1..=across.span {
            let (least, greatest) = range_of(plan, slot);
            svg.path(&whisker(across.middle(slot), scale.height(least), scale.height(greatest)));
        }
    });
}

/// This plan's count of one place.
fn count_of(plan: &Plan, place: i32) -> i32 {
    plan.count(place as usize, place as usize) as i32
}

/// The fewest and the most that a lawful plan has in one place.
fn range_of(plan: &Plan, place: i32) -> (i32, i32) {
    let (least, greatest) = plan.range(place as usize, place as usize);
    (least.into(), greatest.into())
}

/// The way of a whisker from the height of the fewest to that of the most.
fn whisker(x: i32, least: i32, greatest: i32) -> String {
    format!("M{} {least}h8M{x} {least}V{greatest}M{} {greatest}h8", x - 4, x - 4)
}

/// Level lines at round counts, with the counts at the left.
fn draw_levels(svg: &mut Svg, across: &Columns, scale: &Scale) {
    let step = [1, 2, 5, 10, 20, 50].into_iter().find(|step| scale.most / step <= 5).unwrap_or(100);
    let levels = || (0..=scale.most).step_by(step as usize);
    let level = |count| format!("M{} {}H{}", across.left(1), scale.height(count), across.right(across.span));
    svg.group(HAIRLINE, |svg| levels().skip(1).for_each(|count| svg.path(&level(count))));
    svg.group(FIFTH_LINE, |svg| svg.path(&level(0)));
    svg.group(&format!(r#"{FAINT_INK} font-size="{SMALL}" text-anchor="end""#), |svg| {
        levels().for_each(|count| svg.text(PLOT - LABEL_GAP, scale.height(count) + 3, &count.to_string()));
    });
}

/// A line of numbers, one for each place, behind its label.
fn draw_numbers(svg: &mut Svg, across: &Columns, y: i32, (label, weight): (&str, &str), number: impl Fn(i32) -> i32) {
    svg.group(&format!(r#"{INK} font-weight="{weight}" text-anchor="end""#), |svg| svg.text(PLOT - LABEL_GAP, y, label));
    svg.group(&format!(r#"{INK} font-size="{SMALL}" font-weight="{weight}" text-anchor="middle""#), |svg| {
        (1..=across.last()).for_each(|place| svg.text(across.middle(place), y, &number(place).to_string()));
    });
}

// The ring of the answer none.

/// The ring, a row a limit: forward what is allowed at most, back what is asked for at least, and how much is missing.
fn draw_ring(svg: &mut Svg, layout: &Layout, sheet: &Sheet, ring: &Ring) {
    let (across, top) = (&layout.across, layout.middle_top);
    let bottom = top + ring.limits.len() as i32 * BRACKET_ROW;
    draw_heading(svg, top, "Ring: limits that contradict each other");
    draw_columns(svg, across, top, bottom);
    draw_ring_links(svg, across, ring, top);
    for (row, limit) in (0..).zip(&ring.limits) {
        let y = top + row * BRACKET_ROW;
        draw_limit(svg, layout, sheet, limit, y);
    }
    svg.group(&format!(r#"{INK} font-size="{HEADING}" font-weight="bold""#), |svg| svg.text(MARGIN, bottom + WORDS_LINE - 4, &shortfall_text(ring)));
}

/// The links of the ring: each arrow ends at the boundary where the next begins, and the last where the first does.
fn draw_ring_links(svg: &mut Svg, across: &Columns, ring: &Ring, top: i32) {
    let line = |row: usize| top + row as i32 * BRACKET_ROW + BRACKET_LINE;
    svg.group(RING_LINK, |svg| {
        for (row, &boundary) in ring.boundaries.iter().enumerate() {
            let before = row.checked_sub(1).unwrap_or(ring.boundaries.len() - 1);
            svg.path(&upright(across.boundary(boundary.into()), line(before.min(row)), line(before.max(row))));
        }
    });
}

/// A limit in its row: an arrow over its stretch, what it allows or asks for, and what sets it.
fn draw_limit(svg: &mut Svg, layout: &Layout, sheet: &Sheet, limit: &Limit, y: i32) {
    let (left, right) = (layout.across.boundary(i32::from(limit.first) - 1), layout.across.boundary(limit.last.into()));
    let (says, set_by) = (limit_text(limit), sources_text(sheet, &limit.sources));
    let x = left.min(layout.width - MARGIN - width_of(&format!("{says}{set_by}"), TEXT)).max(MARGIN);
    svg.group(&format!("{INK} {HALO}"), |svg| {
        svg.put(&format!(r#"<text x="{x}" y="{}"><tspan font-weight="bold">{says}</tspan>{set_by}</text>"#, y + BRACKET_LINE - 5));
    });
    match limit.bound {
        Bound::AtMost => draw_arrow(svg, Bound::AtMost, left, right, y + BRACKET_LINE + 2),
        Bound::AtLeast => draw_arrow(svg, Bound::AtLeast, right, left, y + BRACKET_LINE + 2),
    }
}

/// An arrow from one side to the other, whole for at most and dashed for at least.
fn draw_arrow(svg: &mut Svg, bound: Bound, from: i32, to: i32, y: i32) {
    let (style, head) = if bound == Bound::AtMost { (MOST_ARROW, -9) } else { (LEAST_ARROW, 9) };
    svg.group(style, |svg| svg.path(&format!("M{from} {y}H{}", to + head)));
    svg.group(ARROW_HEAD, |svg| svg.path(&format!("M{to} {y}l{head} -6v12z")));
}

/// A limit as the page says it.
fn limit_text(limit: &Limit) -> String {
    format!("{} {}", if limit.bound == Bound::AtMost { "at most" } else { "at least" }, limit.count)
}

/// What sets a limit, in words. Of many sources the first two are named.
fn sources_text(sheet: &Sheet, sources: &[Source]) -> String {
    let named: Vec<String> = sources.iter().take(2).map(|source| source_text(sheet, source)).collect();
    match sources.len() {
        0 => String::new(),
        1 | 2 => format!(", set by {}", named.join(" and ")),
        more => format!(", set by {} and {} more", named.join(", "), more - 2),
    }
}

/// A source in words, a rule by its place among the rules.
fn source_text(sheet: &Sheet, source: &Source) -> String {
    match source {
        Source::Rule(rule) => format!("rule {}", rule + 1),
        Source::Windows(inside) => match inside[..] {
            [unit] => format!("the window of {}", sheet.loader[unit]),
            _ => format!("the windows of {} units", inside.len()),
        },
        Source::Units => "the number of units".to_string(),
    }
}

/// What the ring says, in a sentence.
fn shortfall_text(ring: &Ring) -> String {
    let sum = |bound| ring.limits.iter().filter(|limit| limit.bound == bound).map(|limit| usize::from(limit.count)).sum::<usize>();
    let (allowed, wanted) = (sum(Bound::AtMost), sum(Bound::AtLeast));
    format!("Shortfall {}: the limits allow at most {allowed} in all, and ask for at least {wanted}.", ring.shortfall)
}

// The rules.

/// A rule as a bracket over its stretch, with its label above.
struct Bracket {
    left: i32,
    right: i32,
    /// Which row of brackets it is in, from 0.
    row: i32,
    label: String,
    label_middle: i32,
    style: &'static str,
    /// The rule in words.
    tells: String,
}

impl Bracket {
    /// The left and the right end of the bracket with its label.
    fn extent(&self) -> (i32, i32) {
        let half = width_of(&self.label, TEXT) / 2 + 1;
        (self.left.min(self.label_middle - half), self.right.max(self.label_middle + half))
    }
}

/// The brackets of all rules, in the order of the sheet and not yet in rows.
fn brackets_of(sheet: &Sheet, answer: &Answer, across: &Columns) -> Vec<Bracket> {
    (0..sheet.from.len()).map(|rule| bracket_of(sheet, answer, across, rule)).collect()
}

/// The bracket of a rule.
fn bracket_of(sheet: &Sheet, answer: &Answer, across: &Columns, rule: usize) -> Bracket {
    let (from, to) = (sheet.from[rule], sheet.to[rule]);
    let (left, right) = (across.left(from.into()) + 2, across.right(to.into()) - 2);
    let limits = range_text(sheet.low[rule], sheet.high[rule]);
    let (style, has) = rule_state(sheet, answer, rule);
    let tells = format!("rule {}, slots {from} to {to}: {limits}{has}", rule + 1);
    // The ring's labels name rules, so these are named here; what the plan has is said where there is room.
    let whole = if style == SETTING_RULE { format!("{limits}, rule {}", rule + 1) } else { format!("{limits}{has}") };
    let label = if style == SETTING_RULE || width_of(&whole, TEXT) <= right - left { whole } else { limits };
    let half = width_of(&label, TEXT) / 2 + 1;
    let label_middle = ((left + right) / 2).min(across.chart_width() - half).max(half);
    Bracket { left, right, row: 0, label, label_middle, style, tells }
}

/// The style of a rule's bracket, and how many deliveries a plan has there.
fn rule_state(sheet: &Sheet, answer: &Answer, rule: usize) -> (&'static str, String) {
    match answer {
        Answer::Plan(plan) => {
            let has = plan.count(sheet.from[rule].into(), sheet.to[rule].into());
            let (low, high) = (usize::from(sheet.low[rule]), usize::from(sheet.high[rule]));
            // A low of 0 asks for nothing.
            let binds = has == high || (has == low && low > 0);
            (if binds { BINDING_RULE } else { RULE }, format!(", has {has}"))
        }
        Answer::None(ring) => {
            let sets = ring.limits.iter().any(|limit| limit.sources.contains(&Source::Rule(rule)));
            (if sets { SETTING_RULE } else { RULE }, String::new())
        }
    }
}

/// The brackets in rows, from the left each in the first row with room for it: so there are no more rows than extents at one place.
fn packed(mut brackets: Vec<Bracket>) -> Vec<Bracket> {
    brackets.sort_by_key(|bracket| (bracket.extent().0, -bracket.extent().1));
    let mut ends: Vec<i32> = Vec::new();
    for bracket in &mut brackets {
        let (left, right) = bracket.extent();
        let row = ends.iter().position(|end| end + BRACKET_GAP <= left).unwrap_or(ends.len());
        ends.resize(ends.len().max(row + 1), right);
        ends[row] = right;
        bracket.row = row as i32;
    }
    brackets
}

/// The rules as brackets, with the slot numbers below.
fn draw_rules(svg: &mut Svg, layout: &Layout) {
    let top = layout.rules_top;
    draw_heading(svg, top, "Rules: how few and how many deliveries their slots take");
    draw_columns(svg, &layout.across, top, layout.rules_bottom);
    svg.group(&format!(r#"{INK} {HALO} text-anchor="middle""#), |svg| {
        for bracket in &layout.brackets {
            svg.text(bracket.label_middle, top + bracket.row * BRACKET_ROW + BRACKET_LINE - 4, &bracket.label);
        }
    });
    for style in [RULE, BINDING_RULE, SETTING_RULE] {
        draw_brackets(svg, layout, style);
    }
    if layout.brackets.is_empty() {
        draw_nothing(svg, layout, top, "no rules");
    }
    draw_ruler(svg, &layout.across, layout.rules_bottom);
}

/// The brackets of one style.
fn draw_brackets(svg: &mut Svg, layout: &Layout, style: &'static str) {
    svg.group(style, |svg| {
        for one in layout.brackets.iter().filter(|one| one.style == style) {
            let along = bracket(one.left, one.right, layout.rules_top + one.row * BRACKET_ROW + BRACKET_LINE);
            svg.put(&format!(r#"<path d="{along}"><title>{}</title></path>"#, one.tells));
        }
    });
}

/// The way of a bracket over a stretch.
fn bracket(left: i32, right: i32, y: i32) -> String {
    format!("M{left} {}v-{TICK}H{right}v{TICK}", y + TICK)
}

#[cfg(test)]
mod tests {
    use super::*;
    use std::collections::HashMap;

    /// A text or a box of a document, with the attributes of all groups that it is in.
    struct Element {
        name: String,
        attributes: HashMap<String, String>,
        text: String,
    }

    impl Element {
        fn number(&self, attribute: &str) -> i32 {
            self.attributes[attribute].parse().unwrap_or_else(|_| panic!("{attribute} is {}", self.attributes[attribute]))
        }

        fn is_of(&self, style: &str) -> bool {
            attributes_of(style).iter().all(|(name, value)| self.attributes.get(name) == Some(value))
        }
    }

    /// The attributes that a tag has behind its name.
    fn attributes_of(tag: &str) -> HashMap<String, String> {
        let mut attributes = HashMap::new();
        let mut rest = tag.trim();
        while let Some((name, behind)) = rest.split_once(r#"=""#) {
            let (value, behind) = behind.split_once('"').expect("a closing quote");
            assert!(!value.contains('<') && attributes.insert(name.trim().to_string(), value.to_string()).is_none(), "{tag}");
            rest = behind;
        }
        assert!(rest.trim().is_empty(), "{tag}");
        attributes
    }

    /// The elements of a document, in order. Fails where the document is not well formed.
    fn elements(svg: &str) -> Vec<Element> {
        let svg = svg.strip_prefix("<?xml version=\"1.0\" encoding=\"UTF-8\"?>\n").expect("a declaration");
        let (mut open, mut done): (Vec<Element>, Vec<Element>) = (Vec::new(), Vec::new());
        for part in svg.split('<').skip(1) {
            let (tag, text) = part.split_once('>').expect("a closing bracket");
            assert!(text.split('&').skip(1).all(|t| ["amp;", "lt;", "gt;", "quot;"].iter().any(|e| t.starts_with(e))), "{text}");
            if let Some(name) = tag.strip_prefix('/') {
                let closed = open.pop().expect("an open element");
                assert_eq!(closed.name, name);
                done.push(closed);
            } else {
                let (name, behind) = tag.trim_end_matches('/').split_once([' ', '\n']).unwrap_or((tag, ""));
                let mut attributes = open.last().map_or_else(HashMap::new, |outer| outer.attributes.clone());
                attributes.extend(attributes_of(behind));
                open.push(Element { name: name.to_string(), attributes, text: String::new() });
                done.extend(if tag.ends_with('/') { open.pop() } else { None });
            }
            open.iter_mut().for_each(|element| element.text.push_str(text));
        }
        assert!(open.is_empty() && svg.ends_with("</svg>\n"));
        done
    }

    fn sheet(span: usize, units: &[(u16, u16)], rules: &[(u16, u16, u16, u16)]) -> Sheet {
        let mut sheet = Sheet::new(span);
        (1..).zip(units).for_each(|(place, &(first, last))| sheet.add_unit(place * 33, first, last));
        rules.iter().for_each(|&(from, to, low, high)| sheet.add_rule(from, to, low, high));
        sheet
    }

    fn answered(sheet: &Sheet) -> Answer {
        tugrokt::told::plan(sheet).expect("a sheet")
    }

    fn charted(sheet: &Sheet) -> Vec<Element> {
        elements(&chart("a wave", sheet, &answered(sheet)))
    }

    /// The smallest and the largest sheets, with plans and without, and what FORMAT.md has of carried units.
    fn sheets() -> Vec<Sheet> {
        let many: Vec<(u16, u16)> = (0..300).map(|unit| (unit % 48 + 1, (unit % 48 + 1 + unit % 7).min(49))).collect();
        let rules: Vec<(u16, u16, u16, u16)> = (0..60).map(|rule| (rule % 40 + 1, rule % 40 + 1 + rule % 9, 0, 300 - rule)).collect();
        let crossed: Vec<(u16, u16, u16, u16)> = (1..=23).flat_map(|k| [(2 * k - 1, 2 * k + 1, 0, 2), (2 * k + 1, 2 * k + 1, 1, 300)]).collect();
        vec![
            sheet(1, &[], &[]),
            sheet(1, &[], &[(1, 1, 1, 1)]),
            sheet(1, &[(1, 2)], &[(1, 1, 0, 0)]),
            sheet(4, &[(1, 2), (1, 4)], &[(1, 2, 1, 1), (2, 3, 1, 1), (3, 4, 1, 1)]),
            sheet(3, &[(1, 2), (2, 3)], &[(1, 2, 0, 1), (2, 2, 1, 2), (2, 3, 0, 1)]),
            sheet(3, &[(1, 4), (1, 4)], &[(1, 3, 1, 1)]),
            sheet(2, &[(2, 3), (2, 3)], &[(1, 1, 1, 1)]),
            sheet(48, &many, &rules),
            sheet(48, &[(1, 49); 300], &[]),
            sheet(48, &[(1, 48); 27], &crossed),
            sheet(48, &many, &[(48, 48, 300, 300)]),
            sheet(48, &[(48, 48); 300], &[(48, 48, 0, 299); 60]),
            sheet(4, &[(4, 5); 300], &[(4, 4, 0, 299)]),
        ]
    }

    #[test]
    fn every_chart_is_a_document_of_short_lines() {
        for sheet in sheets() {
            let svg = chart("a wave", &sheet, &answered(&sheet));
            let all = elements(&svg);
            let root = all.last().expect("a root");
            assert_eq!(root.attributes["viewBox"], format!("0 0 {} {}", root.attributes["width"], root.attributes["height"]));
            assert!(svg.lines().all(|line| line.len() <= 160), "{:?}", svg.lines().find(|line| line.len() > 160));
        }
    }

    /// Where a text is at most: its left side, top, right side and bottom.
    fn place_of(text: &Element) -> [i32; 4] {
        let (x, y, size) = (text.number("x"), text.number("y"), text.number("font-size"));
        let wide = width_of(&text.text, size);
        let left = match text.attributes.get("text-anchor").map(String::as_str) {
            Some("middle") => x - wide / 2,
            Some("end") => x - wide,
            _ => x,
        };
        [left, y - size * 7 / 10, left + wide, y]
    }

    #[test]
    fn every_text_is_inside_and_large_enough_and_covers_no_other() {
        for sheet in sheets() {
            let all = charted(&sheet);
            let (width, height) = (all.last().unwrap().number("width"), all.last().unwrap().number("height"));
            let texts: Vec<&Element> = all.iter().filter(|element| element.name == "text").collect();
            let places: Vec<[i32; 4]> = texts.iter().map(|text| place_of(text)).collect();
            for (text, [left, top, right, bottom]) in texts.iter().zip(&places) {
                assert!(text.number("font-size") >= 9 && 0 <= *left && *right <= width && 0 <= *top && *bottom < height, "{}", text.text);
            }
            for (one, [left, top, right, bottom]) in places.iter().enumerate() {
                let covers = |other: &[i32; 4]| other[0] < *right && *left < other[2] && other[1] < *bottom && *top < other[3];
                let other = (0..one).find(|&other| covers(&places[other]));
                assert!(other.is_none(), "{} and {}", texts[one].text, texts[other.unwrap()].text);
            }
        }
    }

    /// The bars of a style in the rows of units, in the order of the rows. The first of a style is the legend's.
    fn bars<'a>(all: &'a [Element], style: &str) -> Vec<&'a Element> {
        all.iter().filter(|element| element.name == "rect" && element.is_of(style)).skip(1).collect()
    }

    #[test]
    fn each_unit_has_its_window_its_narrowed_window_and_its_seat() {
        for sheet in sheets() {
            let answer = answered(&sheet);
            let Answer::Plan(plan) = &answer else { continue };
            let (layout, all) = (Layout::of(&sheet, &answer), charted(&sheet));
            for (style, first, last) in [(WINDOW, &sheet.first, &sheet.last), (NARROWED, &plan.earliest, &plan.latest), (SEAT, &plan.slot, &plan.slot)] {
                let bars = bars(&all, style);
                assert_eq!(bars.len(), sheet.loader.len());
                for (unit, bar) in bars.iter().enumerate() {
                    let (left, right) = (layout.across.left(first[unit].into()), layout.across.right(last[unit].into()));
                    assert_eq!((bar.number("x"), bar.number("x") + bar.number("width")), (left + 1, right - 1), "{style}");
                    assert_eq!(bar.number("y"), layout.unit(unit as i32) + 1);
                }
                assert!(bars.windows(2).all(|two| two[0].number("y") + two[0].number("height") < two[1].number("y")), "rows are in order and apart");
            }
        }
    }

    #[test]
    fn each_slot_has_its_count_and_its_range() {
        // The page of this sheet is in docs/FORMAT.md, "At least k".
        let sheet = sheet(4, &[(1, 4); 3], &[(3, 4, 2, 300)]);
        let all = charted(&sheet);
        let behind = |label: &str| {
            let texts = all.iter().filter(|element| element.name == "text").skip_while(|element| element.text != label);
            texts.skip(1).take(4).map(|element| element.text.clone()).collect::<Vec<String>>()
        };
        assert_eq!((behind("this plan"), behind("fewest"), behind("most")), (words("1 0 2 0"), words("0 0 0 0"), words("1 1 3 3")));
        let scale = Scale { floor: Layout::of(&sheet, &answered(&sheet)).middle_top + BARS, most: 3 };
        let heights: Vec<(i32, i32)> = bars(&all, COUNT).iter().map(|bar| (bar.number("y"), bar.number("y") + bar.number("height"))).collect();
        assert_eq!(heights, [(scale.height(1), scale.floor), (scale.height(2), scale.floor)]);
        let paths = all.iter().filter(|element| element.name == "path" && element.is_of(WHISKER));
        let whiskers: Vec<&String> = paths.skip(1).map(|element| &element.attributes["d"]).collect();
        let across = Layout::of(&sheet, &answered(&sheet)).across;
        let expected: Vec<String> = (1..).zip([1, 1, 3, 3]).map(|(slot, most)| whisker(across.middle(slot), scale.floor, scale.height(most))).collect();
        assert_eq!(whiskers, expected.iter().collect::<Vec<_>>());
    }

    fn words(text: &str) -> Vec<String> {
        text.split(' ').map(String::from).collect()
    }

    #[test]
    fn rules_say_their_limits_and_stand_out_where_they_bind() {
        let sheet = sheet(4, &[(1, 4); 3], &[(3, 4, 2, 300), (1, 4, 0, 9), (1, 1, 0, 1), (2, 2, 0, 0), (2, 4, 0, 300), (3, 3, 2, 2), (4, 4, 0, 5)]);
        let layout = Layout::of(&sheet, &answered(&sheet));
        let said = |style| layout.brackets.iter().filter(|bracket| bracket.style == style).map(|bracket| bracket.label.clone()).collect::<Vec<_>>();
        assert_eq!(said(RULE), ["0–9, has 3", "0–300, has 2", "0–5, has 0"]);
        assert_eq!(said(BINDING_RULE), ["0–1, has 1", "0, has 0", "2–300, has 2", "2, has 2"]);
    }

    #[test]
    fn a_title_is_escaped_and_shortened() {
        let sheet = sheet(1, &[], &[]);
        let svg = chart("a<b> & \"c\"\u{1}", &sheet, &answered(&sheet));
        let titles: Vec<String> = elements(&svg).into_iter().filter(|e| e.text == "a&lt;b&gt; &amp; &quot;c&quot;\u{fffd}").map(|e| e.name).collect();
        assert_eq!(titles, ["title", "text"]);
        let long = "folder/".repeat(90) + "may.sheet";
        let svg = chart(&long, &sheet, &answered(&sheet));
        assert!(svg.contains(&format!("<title>{long}</title>")));
        let shown = elements(&svg).into_iter().find(|element| element.name == "text").expect("a title").text;
        assert!(shown.starts_with('…') && shown.ends_with("/may.sheet") && width_of(&shown, TITLE) <= NARROWEST_CHART);
    }

    #[test]
    fn brackets_of_a_row_do_not_meet_and_rows_are_few() {
        for sheet in sheets() {
            let layout = Layout::of(&sheet, &answered(&sheet));
            let extents: Vec<(i32, (i32, i32))> = layout.brackets.iter().map(|bracket| (bracket.row, bracket.extent())).collect();
            assert_eq!(extents.len(), sheet.from.len());
            for (place, (row, (left, right))) in extents.iter().enumerate() {
                let meets = |other: &&(i32, (i32, i32))| other.1.0 < *right + BRACKET_GAP && *left < other.1.1 + BRACKET_GAP;
                assert!(!extents[..place].iter().filter(meets).any(|other| other.0 == *row));
            }
            // As many rows as brackets at the left end of some bracket: no fewer would do.
            let at = |x: i32| extents.iter().filter(|(_, (left, right))| *left <= x && x < right + BRACKET_GAP).count() as i32;
            let rows = extents.iter().map(|(row, _)| row + 1).max();
            assert_eq!(rows, extents.iter().map(|&(_, (left, _))| at(left)).max());
        }
    }

    #[test]
    fn the_carried_place_has_a_column_where_it_is_reached() {
        let named = |sheet: &Sheet| charted(sheet).iter().any(|element| element.name == "text" && element.text == "carried");
        assert!(!named(&sheet(3, &[(1, 3), (1, 3)], &[])));
        assert!(named(&sheet(3, &[(1, 3), (1, 4)], &[])));
        let ring = sheet(2, &[(2, 3), (2, 3)], &[(1, 1, 1, 1)]);
        assert!(named(&ring));
        let across = Columns::of(&ring, &answered(&ring));
        assert!(across.right(2) < across.boundary(2) && across.boundary(2) < across.left(3), "it stands off");
    }

    #[test]
    fn none_shows_its_ring_and_what_sets_it() {
        let sheet = sheet(3, &[(1, 2), (2, 3), (3, 3)], &[(1, 2, 0, 1), (2, 2, 1, 2), (2, 3, 0, 2), (1, 3, 0, 9)]);
        let Answer::None(ring) = answered(&sheet) else { panic!("a ring") };
        let all = charted(&sheet);
        let said: Vec<&str> = all.iter().filter(|element| element.name == "tspan").map(|element| &element.text[..]).collect();
        assert_eq!(said, ring.limits.iter().map(limit_text).collect::<Vec<_>>());
        assert_eq!(said, ["at most 1", "at least 1", "at most 2", "at least 3"]);
        assert_eq!(bars(&all, SETTING_WINDOW).len(), 3);
        assert!(all.iter().any(|element| element.name == "text" && element.text.starts_with(&format!("Shortfall {}: ", ring.shortfall))));
        let brackets = |style| all.iter().filter(|element| element.name == "path" && element.is_of(style)).count() - 1;
        assert_eq!((brackets(SETTING_RULE), brackets(RULE)), (3, 1), "all but the rule for 9");
        assert!(!all.iter().any(|element| element.is_of(SEAT) || element.is_of(NARROWED)));
    }
}
