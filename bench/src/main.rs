//! Measures the planner and a plain Rust implementation of the same job side by side, in one run, and each job beside planning.
//!
//!     cargo run --release                        all cases: times and ratios
//!     cargo run --release -- CASE..              some cases, by the start of their names
//!     cargo run --release -- --list              the names of the cases
//!     cargo run --release -- --jobs              the names of the jobs
//!     cargo run --release -- --sheets CASE       how many sheets a case has
//!     cargo run --release -- --files FOLDER N CASE..     writes N sheets of these cases, in turn, to files in a folder
//!     cargo run --release -- --looks CASE..      how many units the planner's seating looks at, beside looking at all for each slot
//!     cargo run --release -- --count CASE SIDE JOB N     does one job N times and prints nothing, for an instruction counter
//!
//! Both sides get the same texts and lists. The planner's rooms and page are made once and lent again and again without being
//! cleared; the plain implementation returns vectors of its own. A time is the least of many rounds, in which jobs and sides take
//! turns. Before anything is measured the two sides' answers are compared.

mod cases;

use std::hint::black_box;
use std::time::{Duration, Instant};

use cases::Case;

/// What is measured: from a text to lists, and from a partner's text to lists; from lists to a partner's text; the pass alone, over a copy of the sheet's
/// limits; from lists to the rooms (table, seats, narrowed windows or ring); from lists to table or ring alone; from lists to table, seats and narrowed
/// windows, and no ring; from lists to a page, so that `print` less `plan` is printing; from a text to a page; from the texts of two halves to the lists of
/// the whole, and to the line of its last unit.
#[derive(Clone, Copy, PartialEq)]
enum Job {
    Read,
    Partner,
    Write,
    Pass,
    Plan,
    Decide,
    Seat,
    Print,
    Whole,
    Merge,
    Line,
}

const JOBS: [(Job, &str); 11] = [
    (Job::Read, "read"),
    (Job::Partner, "partner"),
    (Job::Write, "write"),
    (Job::Pass, "pass"),
    (Job::Plan, "plan"),
    (Job::Decide, "decide"),
    (Job::Seat, "seat"),
    (Job::Print, "print"),
    (Job::Whole, "whole"),
    (Job::Merge, "merge"),
    (Job::Line, "line"),
];

/// A side does a job on each sheet of a case.
trait Side {
    fn run(&mut self, case: &Case, job: Job);
    fn answer(&mut self, sheet: &plain::Sheet) -> plain::Answer;
    fn decision(&mut self, sheet: &plain::Sheet) -> plain::Decision;
    /// The answer with a plan and the number of units that seating looked at, or nothing.
    fn seats(&mut self, sheet: &plain::Sheet) -> Option<(plain::Answer, usize)>;
    fn page(&mut self, text: &[u8]) -> Vec<u8>;
    /// A partner's text, read and written again.
    fn written_again(&mut self, text: &[u8]) -> Vec<u8>;
    /// Two texts merged.
    fn merged(&mut self, pair: &[Vec<u8>; 2]) -> plain::Sheet;
    /// The line of a loader in two texts that can be merged, if it is in them.
    fn line<'a>(&mut self, pair: &'a [Vec<u8>; 2], loader: u16) -> Option<&'a [u8]>;
}

struct Plain;

impl Side for Plain {
    fn run(&mut self, case: &Case, job: Job) {
        for (i, ((text, sheet), limits)) in case.texts.iter().zip(&case.sheets).zip(&case.limits).enumerate() {
            match job {
                Job::Read => drop(black_box(plain::read(black_box(text)))),
                Job::Partner => drop(black_box(plain::read_partner(black_box(&case.partner_texts[i])))),
                Job::Write => drop(black_box(self.write(black_box(&case.partner_sheets[i])))),
                Job::Pass => drop(black_box(plain::close(&mut black_box(limits).clone(), plain::boundaries(sheet.span)))),
                Job::Plan => drop(black_box(self.answer(black_box(sheet)))),
                Job::Decide => drop(black_box(self.decision(black_box(sheet)))),
                Job::Seat => drop(black_box(self.seats(black_box(sheet)))),
                Job::Print => drop(black_box(plain::print(sheet, &self.answer(black_box(sheet))))),
                Job::Whole => drop(black_box(self.page(black_box(text)))),
                Job::Merge => drop(black_box(self.merged(black_box(&case.pairs[i])))),
                Job::Line => drop(black_box(self.line(black_box(&case.pairs[i]), case.wanted[i]))),
            }
        }
    }

    /// Lists may be anything, so they are asked first; what was read needs no second asking.
    fn answer(&mut self, sheet: &plain::Sheet) -> plain::Answer {
        assert_eq!(plain::refusal(sheet), 0, "the cases are sheets");
        plain::plan(sheet)
    }

    fn decision(&mut self, sheet: &plain::Sheet) -> plain::Decision {
        assert_eq!(plain::refusal(sheet), 0, "the cases are sheets");
        plain::decide(sheet)
    }

    fn seats(&mut self, sheet: &plain::Sheet) -> Option<(plain::Answer, usize)> {
        assert_eq!(plain::refusal(sheet), 0, "the cases are sheets");
        plain::seat(sheet)
    }

    fn page(&mut self, text: &[u8]) -> Vec<u8> {
        let sheet = plain::read(text).expect("the cases are sheets");
        plain::print(&sheet, &plain::plan(&sheet))
    }

    fn written_again(&mut self, text: &[u8]) -> Vec<u8> {
        self.write(&plain::read_partner(text).expect("the cases are sheets"))
    }

    fn merged(&mut self, [one, two]: &[Vec<u8>; 2]) -> plain::Sheet {
        plain::merge(one, two).expect("the halves can be merged")
    }

    fn line<'a>(&mut self, [one, two]: &'a [Vec<u8>; 2], loader: u16) -> Option<&'a [u8]> {
        plain::line_of(one, two, loader).ok()
    }
}

impl Plain {
    fn write(&self, sheet: &plain::Sheet) -> Vec<u8> {
        assert_eq!((plain::refusal(sheet), plain::partner_refusal(sheet)), (0, (0, 0)), "the partner can have the sheets");
        plain::write_partner(sheet)
    }
}

mod planner {
    use super::{black_box, Case, Job, Side};
    use model::network::{self, Outcome};
    use tugrokt::entry::{self, DecideRooms, ListRooms, Lists, Reading, Rooms, SeatRooms};
    use tugrokt::{MAX_BOUNDARIES, MAX_CELLS, MAX_PAGE, MAX_RULES, MAX_UNITS};

    /// The planner, with rooms that are lent again and again.
    pub struct Planner {
        lists: [Vec<u16>; 7],
        table: Vec<i16>,
        rooms: [Vec<u16>; 3],
        ring: Vec<u16>,
        page: Vec<u8>,
    }

    fn lists(sheet: &plain::Sheet) -> Lists<'_> {
        let plain::Sheet { span, loader, first, last, from, to, low, high } = sheet;
        Lists { span: *span, loader, first, last, from, to, low, high }
    }

    impl Planner {
        pub fn new() -> Planner {
            let [u, r] = [MAX_UNITS, MAX_RULES];
            Planner {
                lists: [u, u, u, r, r, r, r].map(|length| vec![0; length]),
                table: vec![0; MAX_CELLS],
                rooms: [u, u, u].map(|length| vec![0; length]),
                ring: vec![0; MAX_BOUNDARIES],
                page: vec![0; MAX_PAGE],
            }
        }

        fn read_by(&mut self, read: fn(&[u8], ListRooms) -> Reading, text: &[u8]) -> Reading {
            let [loader, first, last, from, to, low, high] = &mut self.lists;
            let reply = read(text, ListRooms { loader, first, last, from, to, low, high });
            assert_eq!(reply.number, 0, "the cases are sheets");
            reply
        }

        fn read(&mut self, text: &[u8]) -> Reading {
            self.read_by(entry::read, text)
        }

        fn merge(&mut self, [one, two]: &[Vec<u8>; 2]) -> Reading {
            let [loader, first, last, from, to, low, high] = &mut self.lists;
            let reply = entry::merge(one, two, ListRooms { loader, first, last, from, to, low, high });
            assert_eq!(reply.number, 0, "the halves can be merged");
            reply
        }

        fn write(&mut self, lists: Lists) -> usize {
            let reply = entry::write_partner(lists, &mut self.page, 0);
            assert_eq!(reply.number, 0, "the partner can have the sheets");
            reply.place
        }

        fn pass(&mut self, limits: &[i16], w: usize) -> Outcome {
            self.table[..limits.len()].copy_from_slice(limits);
            // SAFETY: the cases are sheets, and these are a sheet's limits.
            unsafe { network::pass_over_limits(&mut self.table, w) }
        }

        fn plan(&mut self, sheet: &plain::Sheet) -> usize {
            let [plan, earliest, latest] = &mut self.rooms;
            let rooms = Rooms { table: &mut self.table, plan, earliest, latest, ring: &mut self.ring };
            let reply = entry::plan(lists(sheet), rooms);
            assert_eq!(reply.number, 0, "the cases are sheets");
            reply.length
        }

        fn decide(&mut self, sheet: &plain::Sheet) -> usize {
            let reply = entry::decide(lists(sheet), DecideRooms { table: &mut self.table, ring: &mut self.ring });
            assert_eq!(reply.number, 0, "the cases are sheets");
            reply.length
        }

        /// The number of units that were looked at, with a plan.
        fn seat(&mut self, sheet: &plain::Sheet) -> Option<usize> {
            let [plan, earliest, latest] = &mut self.rooms;
            let reply = entry::seat(lists(sheet), SeatRooms { table: &mut self.table, plan, earliest, latest });
            assert_eq!(reply.number, 0, "the cases are sheets");
            (reply.planned == 1).then_some(reply.looked)
        }

        /// The front of the table for this sheet.
        fn table(&self, sheet: &plain::Sheet) -> Vec<i16> {
            self.table[..plain::boundaries(sheet.span).pow(2)].to_vec()
        }

        /// The plan that stands in the rooms.
        fn planned(&self, sheet: &plain::Sheet) -> plain::Answer {
            let [plan, earliest, latest] = self.rooms.clone().map(|room| room[..sheet.first.len()].to_vec());
            plain::Answer::Plan { plan, earliest, latest, table: self.table(sheet) }
        }

        fn print(&mut self, sheet: &plain::Sheet) -> usize {
            let [plan, earliest, latest] = &mut self.rooms;
            let rooms = Rooms { table: &mut self.table, plan, earliest, latest, ring: &mut self.ring };
            let reply = entry::print(lists(sheet), rooms, &mut self.page, 0);
            assert_eq!(reply.number, 0, "the page is long enough");
            reply.place
        }

        fn whole(&mut self, text: &[u8]) -> usize {
            let Reading { span, units, rules, .. } = self.read(text);
            let [loader, first, last, from, to, low, high] = &self.lists;
            let [loader, first, last] = [loader, first, last].map(|list| &list[..units]);
            let [from, to, low, high] = [from, to, low, high].map(|list| &list[..rules]);
            let [plan, earliest, latest] = &mut self.rooms;
            let rooms = Rooms { table: &mut self.table, plan, earliest, latest, ring: &mut self.ring };
            let reply = entry::print(Lists { span, loader, first, last, from, to, low, high }, rooms, &mut self.page, 0);
            assert_eq!(reply.number, 0, "the page is long enough");
            reply.place
        }
    }

    impl Side for Planner {
        fn run(&mut self, case: &Case, job: Job) {
            for (i, ((text, sheet), limits)) in case.texts.iter().zip(&case.sheets).zip(&case.limits).enumerate() {
                match job {
                    Job::Read => drop(black_box(self.read(black_box(text)))),
                    Job::Partner => drop(black_box(self.read_by(entry::read_partner, black_box(&case.partner_texts[i])))),
                    Job::Write => drop(black_box(self.write(lists(black_box(&case.partner_sheets[i]))))),
                    Job::Pass => drop(black_box(self.pass(black_box(limits), plain::boundaries(sheet.span)))),
                    Job::Plan => drop(black_box(self.plan(black_box(sheet)))),
                    Job::Decide => drop(black_box(self.decide(black_box(sheet)))),
                    Job::Seat => drop(black_box(self.seat(black_box(sheet)))),
                    Job::Print => drop(black_box(self.print(black_box(sheet)))),
                    Job::Whole => drop(black_box(self.whole(black_box(text)))),
                    Job::Merge => drop(black_box(self.merge(black_box(&case.pairs[i])))),
                    Job::Line => drop(black_box(self.line(black_box(&case.pairs[i]), case.wanted[i]))),
                }
            }
        }

        fn answer(&mut self, sheet: &plain::Sheet) -> plain::Answer {
            let length = self.plan(sheet);
            if length > 0 {
                return plain::Answer::None { ring: self.ring[..length].to_vec() };
            }
            self.planned(sheet)
        }

        fn decision(&mut self, sheet: &plain::Sheet) -> plain::Decision {
            let length = self.decide(sheet);
            if length > 0 {
                return plain::Decision::None { ring: self.ring[..length].to_vec() };
            }
            plain::Decision::Fits { table: self.table(sheet) }
        }

        fn seats(&mut self, sheet: &plain::Sheet) -> Option<(plain::Answer, usize)> {
            self.seat(sheet).map(|looked| (self.planned(sheet), looked))
        }

        fn page(&mut self, text: &[u8]) -> Vec<u8> {
            let place = self.whole(text);
            self.page[..place].to_vec()
        }

        fn written_again(&mut self, text: &[u8]) -> Vec<u8> {
            let Reading { span, units, rules, .. } = self.read_by(entry::read_partner, text);
            let [loader, first, last, from, to, low, high] = self.lists.clone();
            let (n, k) = (units, rules);
            let [loader, first, last] = [&loader[..n], &first[..n], &last[..n]];
            let [from, to, low, high] = [&from[..k], &to[..k], &low[..k], &high[..k]];
            let place = self.write(Lists { span, loader, first, last, from, to, low, high });
            self.page[..place].to_vec()
        }

        fn merged(&mut self, pair: &[Vec<u8>; 2]) -> plain::Sheet {
            let Reading { span, units, rules, .. } = self.merge(pair);
            let [loader, first, last, from, to, low, high] = self.lists.clone();
            let [loader, first, last] = [&loader[..units], &first[..units], &last[..units]].map(<[u16]>::to_vec);
            let [from, to, low, high] = [&from[..rules], &to[..rules], &low[..rules], &high[..rules]].map(<[u16]>::to_vec);
            plain::Sheet { span, loader, first, last, from, to, low, high }
        }

        fn line<'a>(&mut self, [one, two]: &'a [Vec<u8>; 2], loader: u16) -> Option<&'a [u8]> {
            tugrokt::line_of(one, two, loader).ok()
        }
    }
}

/// The sides' names, the planner first.
fn sides() -> Vec<(&'static str, Box<dyn Side>)> {
    vec![("planner", Box::new(planner::Planner::new())), ("plain", Box::new(Plain))]
}

/// The least time of each job, a sheet, for each side, in nanoseconds.
fn measure(case: &Case, sides: &mut [(&'static str, Box<dyn Side>)]) -> Vec<Vec<f64>> {
    // Enough repetitions for a millisecond: short turns, so that some of them are undisturbed.
    let times = JOBS.map(|(job, _)| {
        let start = Instant::now();
        sides.last_mut().unwrap().1.run(case, job);
        let once = start.elapsed().max(Duration::from_nanos(100));
        (Duration::from_millis(1).as_nanos() / once.as_nanos()).clamp(1, 100_000) as u32
    });
    let mut least = vec![vec![f64::INFINITY; sides.len()]; JOBS.len()];
    for _ in 0..60 {
        for (((job, _), times), least) in JOBS.iter().zip(times).zip(&mut least) {
            for (side, least) in sides.iter_mut().zip(least) {
                let start = Instant::now();
                for _ in 0..times {
                    side.1.run(case, *job);
                }
                let time = start.elapsed().as_nanos() as f64 / times as f64 / case.texts.len() as f64;
                *least = least.min(time);
            }
        }
    }
    least
}

/// Both sides give the same answer and print the same page, or show different rings of one sheet; each decides and seats as it plans, both
/// look at as many units, and both merge its halves to the same lists and find the same line in them.
fn compare(case: &Case, sides: &mut [(&'static str, Box<dyn Side>)]) {
    for (i, sheet) in case.sheets.iter().enumerate() {
        let answers: Vec<plain::Answer> = sides.iter_mut().map(|side| side.1.answer(sheet)).collect();
        let same = answers[0] == answers[1];
        let both_none = answers.iter().all(|a| matches!(a, plain::Answer::None { .. }));
        assert!(same || both_none, "{}: the two sides' answers to sheet {i} differ", case.name);
        let pages: Vec<Vec<u8>> = sides.iter_mut().map(|side| side.1.page(&case.texts[i])).collect();
        assert!(!same || pages[0] == pages[1], "{}: the two sides' pages of sheet {i} differ", case.name);
        for (name, side) in sides.iter_mut() {
            let text = &case.partner_texts[i];
            assert!(side.written_again(text) == *text, "{}: the {name} writes another text of a partner's sheet {i}", case.name);
        }
        let merged: Vec<plain::Sheet> = sides.iter_mut().map(|side| side.1.merged(&case.pairs[i])).collect();
        assert_eq!(merged[0], merged[1], "{}: the two sides merge the halves of sheet {i} differently", case.name);
        let lines: Vec<_> = sides.iter_mut().map(|side| side.1.line(&case.pairs[i], case.wanted[i]).map(<[u8]>::as_ptr_range)).collect();
        assert_eq!(lines[0], lines[1], "{}: the two sides find another line of sheet {i}", case.name);
        let mut looked = Vec::new();
        for (answer, (name, side)) in answers.into_iter().zip(sides.iter_mut()) {
            let decision = match &answer {
                plain::Answer::Plan { table, .. } => plain::Decision::Fits { table: table.clone() },
                plain::Answer::None { ring } => plain::Decision::None { ring: ring.clone() },
            };
            assert_eq!(side.decision(sheet), decision, "{}: what the {name} decides of sheet {i}", case.name);
            let planned = matches!(answer, plain::Answer::Plan { .. }).then_some(answer);
            let (seated, looks) = side.seats(sheet).unzip();
            assert_eq!(seated, planned, "{}: how the {name} seats sheet {i}", case.name);
            looked.push(looks);
        }
        assert_eq!(looked[0], looked[1], "{}: how many units the two sides look at in sheet {i}", case.name);
    }
}

/// How many units seating looks at in all sheets of a case, none where there is no plan, and how many it would if it looked at all for each
/// slot and for the carried place.
fn looks(case: &Case, side: &mut dyn Side) -> (usize, usize) {
    let looked = case.sheets.iter().map(|sheet| side.seats(sheet).map_or(0, |(_, looked)| looked)).sum();
    (looked, case.sheets.iter().map(|sheet| sheet.first.len() * (sheet.span + 1)).sum())
}

/// The cases that are named by the start of their names, or all.
fn chosen(words: &[String]) -> impl Iterator<Item = &'static str> + '_ {
    cases::NAMES.into_iter().filter(|name| words.is_empty() || words.iter().any(|w| name.starts_with(w.as_str())))
}

fn main() {
    let words: Vec<String> = std::env::args().skip(1).collect();
    let mut sides = sides();
    match words.first().map(String::as_str) {
        Some("--list") => cases::NAMES.iter().for_each(|name| println!("{name}")),
        Some("--jobs") => JOBS.iter().for_each(|job| println!("{}", job.1)),
        Some("--sheets") => println!("{}", cases::make(&words[1]).sheets.len()),
        Some("--files") => {
            let [_, folder, count, names @ ..] = &words[..] else { panic!("--files FOLDER N CASE..") };
            let texts: Vec<Vec<u8>> = chosen(names).flat_map(|name| cases::make(name).texts).collect();
            for (i, text) in texts.iter().cycle().take(count.parse().expect("a number of files")).enumerate() {
                std::fs::write(format!("{folder}/{i:05}.sheet"), text).expect("the file is written");
            }
        }
        Some("--looks") => {
            println!("{:14} {:>12} {:>12} {:>7}", "looks", "seating", "all units", "ratio");
            for name in chosen(&words[1..]) {
                let case = cases::make(name);
                compare(&case, &mut sides);
                let (looked, all) = looks(&case, sides[0].1.as_mut());
                // The smallest sheet has no unit to look at.
                let ratio = if all == 0 { "-".into() } else { format!("{:.2}", looked as f64 / all as f64) };
                println!("{name:14} {looked:12} {all:12} {ratio:>7}");
            }
        }
        Some("--count") => {
            let [_, name, side, job, times] = &words[..] else { panic!("--count CASE SIDE JOB N") };
            let case = cases::make(name);
            let job = JOBS.iter().find(|j| j.1 == job).expect("a job; --jobs has them").0;
            let side = sides.iter_mut().find(|s| s.0 == side).expect("a side: planner or plain");
            for _ in 0..times.parse().expect("a number of times") {
                side.1.run(&case, job);
            }
        }
        _ => {
            println!("{:14} {:7} {:>12} {:>12} {:>7} {:>7}", "nanoseconds", "job", sides[0].0, "plain", "ratio", "of plan");
            for name in chosen(&words) {
                let case = cases::make(name);
                compare(&case, &mut sides);
                let least = measure(&case, &mut sides);
                let plan = JOBS.iter().position(|(job, _)| *job == Job::Plan).expect("planning is a job");
                for ((_, job_name), job) in JOBS.iter().zip(&least) {
                    let (ours, theirs, of_plan) = (job[0], job[job.len() - 1], job[0] / least[plan][0]);
                    println!("{name:14} {job_name:7} {ours:12.0} {theirs:12.0} {:7.2} {of_plan:7.2}", ours / theirs);
                }
            }
        }
    }
}
