//! The pages on standard output and in folders are those of the proved program, byte for byte.

mod common;

use std::collections::BTreeMap;
use std::fs;
use std::path::Path;

use common::{folder, listed, run, run_in, status_of, wave, Ended};
use model::damage::{any_text, valid};
use model::effort;
use model::house::House;
use model::pairs;
use model::program::Asked;
use model::random::Random;
use model::seed;

/// A text of a house: one that reads, or most likely one that does not.
fn text(r: &mut Random, house: House) -> Vec<u8> {
    if r.chance(40) { valid(r, house) } else { any_text(r, house) }
}

/// The words by which the command is asked for what the program is asked for.
fn words(asked: Asked) -> &'static [&'static str] {
    match asked {
        Asked::Plan => &["plan"],
        Asked::Fits => &["fits"],
        Asked::Partner => &["plan", "--partner"],
        Asked::FromPartner => &["from-partner"],
        Asked::ToPartner => &["to-partner"],
    }
}

/// Holds that a call has this page and the status that goes with it, and that something is said of a refused sheet and of no other.
fn hold(ended: &Ended, page: &str, of: &str) {
    assert_eq!(ended.page, page, "{of}");
    assert_eq!(ended.status, status_of(page), "{of}: {page}");
    assert_eq!(ended.said.is_empty(), ended.status != 2, "{of}: {}", ended.said);
}

/// Holds the command to the program on random texts, from standard input and from a file in turn, and that all kinds of pages were seen.
fn same_pages(asked: Asked, own: u64) {
    let folder = folder(&format!("pages {asked:?}"));
    let seed = seed(own);
    let mut seen = [0; 3];
    for i in 0..effort(250) {
        let mut r = Random::of_case(seed, i);
        let text = text(&mut r, asked.house());
        let page = wave(asked.words(), &text);
        let ended = if i % 2 == 0 {
            run(words(asked), &text)
        } else {
            fs::write(folder.join("sheet"), &text).unwrap();
            run_in(&folder, &[words(asked), &["sheet"]].concat(), b"")
        };
        hold(&ended, &page, &format!("{asked:?}, seed {seed}, case {i}: {:?}", String::from_utf8_lossy(&text)));
        seen[ended.status as usize] += 1;
    }
    let converts = matches!(asked, Asked::FromPartner | Asked::ToPartner);
    assert!(seen[0] > 0 && seen[2] > 0 && (converts || seen[1] > 0), "{asked:?}: {seen:?}");
}

/// `plan` is the program without a word.
#[test]
fn plans() {
    same_pages(Asked::Plan, 0xc1);
}

/// `fits` is the program's word.
#[test]
fn fits() {
    same_pages(Asked::Fits, 0xc2);
}

/// `plan --partner` is the program's word `partner`.
#[test]
fn partners_plans() {
    same_pages(Asked::Partner, 0xc3);
}

/// `from-partner` is the program's.
#[test]
fn from_partner() {
    same_pages(Asked::FromPartner, 0xc4);
}

/// `to-partner` is the program's.
#[test]
fn to_partner() {
    same_pages(Asked::ToPartner, 0xc5);
}

/// The program has no word for whether a partner's sheet fits: it is the refusal of reading it, or what the program says of it in our form.
#[test]
fn partners_fits() {
    let seed = seed(0xc6);
    for i in 0..effort(150) {
        let text = text(&mut Random::of_case(seed, i), House::Partner);
        let ours = wave(&["from-partner"], &text);
        let page = if status_of(&ours) == 2 { ours } else { wave(&["fits"], ours.as_bytes()) };
        hold(&run(&["fits", "--partner"], &text), &page, &format!("seed {seed}, case {i}"));
    }
}

/// Two texts, as the files `one` and `two` of a folder.
fn put_pair(folder: &Path, r: &mut Random) -> (Vec<u8>, Vec<u8>) {
    let (one, two) = pairs::texts(r);
    fs::write(folder.join("one"), &one).unwrap();
    fs::write(folder.join("two"), &two).unwrap();
    (one, two)
}

/// What the program writes with these words, of files of this folder.
fn wave_in(folder: &Path, words: &[&str]) -> String {
    let path = |word: &&str| if ["one", "two"].contains(word) { folder.join(word).display().to_string() } else { word.to_string() };
    wave(&words.iter().map(path).collect::<Vec<_>>(), b"")
}

/// `merge` is the program's, also where one of the two comes from standard input.
#[test]
fn merging() {
    let (folder, seed) = (folder("pages merging"), seed(0xc7));
    let mut seen = [0; 3];
    for i in 0..effort(250) {
        let (one, two) = put_pair(&folder, &mut Random::of_case(seed, i));
        let page = wave_in(&folder, &["merge", "one", "two"]);
        let ended = match i % 4 {
            0 => run_in(&folder, &["merge", "-", "two"], &one),
            1 => run_in(&folder, &["merge", "one", "-"], &two),
            _ => run_in(&folder, &["merge", "one", "two"], b""),
        };
        hold(&ended, &page, &format!("seed {seed}, case {i}"));
        seen[ended.status as usize] += 1;
    }
    assert!(seen[0] > 0 && seen[2] > 0, "{seen:?}");
}

/// A loader number of one of the texts, or one of neither, or no number that a sheet may have.
fn loader(r: &mut Random, texts: &[u8]) -> String {
    let text = String::from_utf8_lossy(texts);
    let known: Vec<&str> = text.lines().filter_map(|line| line.strip_prefix("(unit ")?.split(' ').next()).filter(|word| is_number(word)).collect();
    match r.below(10) {
        0 => r.pick(&["0", "00", "10000", "65535", "65536", "65537", "4294967297", "99999999999999999999"]).to_string(),
        1 => format!("0{}", r.below(30)),
        2 | 3 => r.between(1, 9_999).to_string(),
        _ if known.is_empty() => "1".to_string(),
        _ => r.pick(&known).to_string(),
    }
}

fn is_number(word: &str) -> bool {
    !word.is_empty() && word.bytes().all(|byte| byte.is_ascii_digit())
}

/// `line` is the program's.
#[test]
fn lines() {
    let (folder, seed) = (folder("pages lines"), seed(0xc8));
    let mut seen = [0; 3];
    for i in 0..effort(250) {
        let mut r = Random::of_case(seed, i);
        let (one, two) = put_pair(&folder, &mut r);
        let loader = loader(&mut r, &[one, two].concat());
        let page = wave_in(&folder, &["line", &loader, "one", "two"]);
        let ended = run_in(&folder, &["line", &loader, "one", "two"], b"");
        hold(&ended, &page, &format!("loader {loader}, seed {seed}, case {i}"));
        seen[ended.status as usize] += 1;
    }
    assert!(seen[0] > 0 && seen[2] > 0, "{seen:?}");
}

/// A folder with so many sheets: their names, and the pages of the program, which runs in two threads.
fn many(folder: &Path, seed: u64, count: usize) -> BTreeMap<String, String> {
    let one = |i: usize| {
        let mut r = Random::of_case(seed, i);
        let text = if r.chance(80) { valid(&mut r, House::Ours) } else { any_text(&mut r, House::Ours) };
        let name = format!("{i}.sheet");
        fs::write(folder.join(&name), &text).unwrap();
        (name, wave::<&str>(&[], &text))
    };
    let half = |of: usize| (of..count).step_by(2).map(one).collect::<Vec<_>>();
    std::thread::scope(|scope| {
        let halves = [0, 1].map(|of| scope.spawn(move || half(of)));
        halves.into_iter().flat_map(|half| half.join().unwrap()).collect()
    })
}

/// The summary of these pages, and so many files that could not be answered.
fn summary(pages: &BTreeMap<String, String>, failed: usize) -> String {
    let count = |status: i32| pages.values().filter(|page| status_of(page) == status).count();
    let ends = [(count(0), "planned"), (count(1), "none"), (count(2), "refused"), (failed, "failed")];
    let shown: Vec<String> = ends.iter().filter(|end| end.0 > 0).map(|(count, name)| format!("{count} {name}")).collect();
    format!("tugrokt: {} sheets: {}\n", pages.len() + failed, shown.join(", "))
}

/// Holds that a folder has these pages, and nothing else.
fn hold_pages(folder: &Path, pages: &BTreeMap<String, String>) {
    let mut names: Vec<String> = pages.keys().map(|name| format!("{name}.page")).collect();
    names.sort();
    assert_eq!(listed(folder), names);
    for (name, page) in pages {
        assert_eq!(&fs::read_to_string(folder.join(format!("{name}.page"))).unwrap(), page, "{name}");
    }
}

/// Of 5,000 sheets every page in the folder is the program's, and the summary is right.
#[test]
fn five_thousand() {
    let (folder, seed) = (folder("pages five thousand"), seed(0xc9));
    let pages = many(&folder, seed, effort(5_000));
    let words: Vec<&str> = ["plan", "-j", "2", "--to", "pages"].into_iter().chain(pages.keys().map(String::as_str)).collect();
    let Ended { status, page, said } = run_in(&folder, &words, b"");
    assert_eq!((status, page.as_str()), (2, ""));
    assert!(said.ends_with(&format!("\n{}", summary(&pages, 0))), "seed {seed}: {}", said.lines().last().unwrap());
    hold_pages(&folder.join("pages"), &pages);
    let seen = [0, 1, 2].map(|status| pages.values().filter(|page| status_of(page) == status).count());
    assert!(seen.iter().all(|&count| count * 50 > pages.len()), "{seen:?}");
}

/// Files that cannot be read stand among so many: they are said and counted, have no page, not even an older one, and hold up nobody.
fn with_unreadable_files(jobs: &str, own: u64) {
    let (folder, seed) = (folder(&format!("pages unreadable {jobs}")), seed(own));
    let pages = many(&folder, seed, effort(300));
    let unreadable = ["missing", "folder", "no/such/file", "0.sheet/below"];
    fs::create_dir_all(folder.join("folder")).unwrap();
    fs::create_dir_all(folder.join("pages")).unwrap();
    for older in ["missing", "folder", "file", "0.sheet", "1.sheet"] {
        fs::write(folder.join(format!("pages/{older}.page")), "(answer plan 0)\n").unwrap();
    }
    let mut names: Vec<&str> = pages.keys().map(String::as_str).collect();
    for (i, name) in unreadable.iter().enumerate() {
        names.insert(i * names.len() / unreadable.len(), name);
    }
    let words: Vec<&str> = ["plan", jobs, "--to=pages"].into_iter().chain(names).collect();
    let Ended { status, page, said } = run_in(&folder, &words, b"");
    assert_eq!((status, page.as_str()), (3, ""));
    for name in unreadable {
        assert_eq!(said.lines().filter(|line| line.starts_with(&format!("tugrokt: {name}: "))).count(), 1, "{name}: {said}");
    }
    assert!(said.ends_with(&format!("\n{}", summary(&pages, unreadable.len()))), "{said}");
    hold_pages(&folder.join("pages"), &pages);
}

/// The same by one thread.
#[test]
fn unreadable_files_by_one() {
    with_unreadable_files("-j1", 0xca);
}

/// The same by seven threads.
#[test]
fn unreadable_files_by_seven() {
    with_unreadable_files("-j7", 0xcb);
}
