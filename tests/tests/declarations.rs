//! The border against the Rattle sources, in Rust and in C: the same entries, with the same parameters and types in the same order, the same
//! replies, field by field, and the same numbers.

use std::collections::BTreeMap;
use std::fs;
use std::path::{Path, PathBuf};

/// Parameters of a function or fields of a struct in their order, each as its name and its type.
type Named = Vec<(String, String)>;

/// What crosses the border: each entry's parameters and the type of its reply, and the structs laid out as C lays them out.
#[derive(Debug, PartialEq, Eq)]
struct Declared {
    entries: BTreeMap<String, (Named, String)>,
    structs: BTreeMap<String, Named>,
}

fn root() -> &'static Path {
    Path::new(env!("ROOT"))
}

/// The words of a text, one space between two.
fn plain(text: &str) -> String {
    text.split_whitespace().collect::<Vec<_>>().join(" ")
}

/// The parts of a list, without what follows its last mark.
fn parts(inside: &str, mark: char) -> impl Iterator<Item = String> + '_ {
    inside.split(mark).map(plain).filter(|p| !p.is_empty())
}

/// A name and a type, as Rattle and Rust write them.
fn named(part: &str) -> (String, String) {
    let (name, kind) = part.split_once(": ").expect("a name and a type");
    (name.trim_start_matches("pub ").to_string(), kind.to_string())
}

/// As C writes them: the name last, a star before it.
fn named_in_c(part: &str) -> (String, String) {
    let (kind, name) = part.rsplit_once(' ').expect("a type and a name");
    let stars = name.len() - name.trim_start_matches('*').len();
    (name[stars..].to_string(), format!("{kind}{}", &name[..stars]))
}

/// What stands up to a mark, and what follows it.
fn cut<'a>(text: &'a str, mark: &str) -> (&'a str, &'a str) {
    text.split_once(mark).unwrap_or_else(|| panic!("no {mark} in {text}"))
}

/// A text without the comments that begin with `//`.
fn without_line_comments(text: &str) -> String {
    text.lines().map(|line| line.split_once("//").map_or(line, |(before, _)| before)).collect::<Vec<_>>().join("\n")
}

/// The functions that are declared as `head` + NAME + `(..) -> REPLY`, and the structs with `#[repr(C)]`.
fn declared(text: &str, head: &str) -> Declared {
    let text = without_line_comments(text);
    let mut entries = BTreeMap::new();
    for part in text.split(head).skip(1) {
        let (name, rest) = cut(part, "(");
        let (inside, after) = cut(rest, ")");
        let reply = after.strip_prefix(" -> ").unwrap_or_else(|| panic!("{name} has a reply"));
        let reply = reply.split([';', '\n', ' ']).next().unwrap().to_string();
        assert!(entries.insert(name.to_string(), (parts(inside, ',').map(|p| named(&p)).collect(), reply)).is_none(), "{name} twice");
    }
    let mut structs = BTreeMap::new();
    for part in text.split("#[repr(C)]").skip(1) {
        let (name, rest) = cut(cut(part, "pub struct ").1, " {");
        let fields = parts(cut(rest, "}").0, ',').map(|p| named(&p)).collect();
        assert_eq!(structs.insert(name.to_string(), fields), None, "{name} twice");
    }
    Declared { entries, structs }
}

/// The functions and structs of the header.
fn declared_in_c(header: &str) -> Declared {
    let mut declared = Declared { entries: BTreeMap::new(), structs: BTreeMap::new() };
    // Lines that begin with `#` are the preprocessor's, and the two of `extern "C"` are there for C++ alone.
    let kept = header.lines().filter(|l| !l.starts_with('#') && !["extern \"C\" {", "}"].contains(l));
    let mut rest = kept.collect::<Vec<_>>().join("\n");
    while !rest.trim().is_empty() {
        let at = rest.find(['(', '{']).unwrap_or_else(|| panic!("neither a function nor a struct: {rest}"));
        let head = plain(&rest[..at]);
        let (closing, mark, is_struct) = if &rest[at..=at] == "{" { ("};", ';', true) } else { (");", ',', false) };
        let (inside, after) = cut(&rest[at + 1..], closing);
        let all: Named = parts(inside, mark).map(|p| named_in_c(&p)).collect();
        let first = if is_struct {
            declared.structs.insert(head.clone(), all).is_none()
        } else {
            let (reply, name) = head.rsplit_once(' ').expect("a type and a name");
            declared.entries.insert(name.to_string(), (all, reply.to_string())).is_none()
        };
        assert!(first, "{head} twice");
        rest = after.to_string();
    }
    declared
}

fn sources(folder: &Path, all: &mut Vec<PathBuf>) {
    for entry in fs::read_dir(folder).unwrap().map(|e| e.unwrap().path()) {
        if entry.is_dir() {
            sources(&entry, all);
        } else if entry.extension().is_some_and(|e| e == "rt") {
            all.push(entry);
        }
    }
}

/// The sources of a Rattle crate, one behind the other.
fn rattle(name: &str) -> String {
    let mut files = Vec::new();
    sources(&root().join("crates").join(name).join("src"), &mut files);
    files.iter().map(|f| fs::read_to_string(f).unwrap()).collect()
}

/// What a Rattle crate exports; the structs of its replies may stand in a crate of their own.
fn exported(name: &str) -> Declared {
    let replies = format!("{name}_replies");
    let replies = if root().join("crates").join(&replies).exists() { rattle(&replies) } else { String::new() };
    declared(&(rattle(name) + &replies), "extern \"C\" fn ")
}

/// How a type of Rattle's that is passed by value is written: a number, or one of the structs.
fn by_value(kind: &str, c: bool) -> String {
    match kind {
        _ if !c => kind.to_string(),
        "usize" => "size_t".to_string(),
        _ if kind.starts_with('u') => format!("uint{}_t", &kind[1..]),
        _ if kind.starts_with('i') => format!("int{}_t", &kind[1..]),
        _ => format!("struct tugrokt_{}", kind.to_lowercase()),
    }
}

/// How the parameters of a Rattle function, or the fields of a struct, cross the border.
fn crossing(all: &Named, c: bool) -> Named {
    let pointer = |kind: &str, written: bool| match (c, written) {
        (true, true) => format!("{}*", by_value(kind, c)),
        (true, false) => format!("const {}*", by_value(kind, c)),
        (false, true) => format!("*mut {kind}"),
        (false, false) => format!("*const {kind}"),
    };
    let mut crossed = Vec::new();
    for (name, kind) in all {
        let Some(lent) = kind.strip_prefix('&') else {
            crossed.push((name.clone(), by_value(kind, c)));
            continue;
        };
        let (written, lent) = lent.strip_prefix("mut ").map_or((false, lent), |l| (true, l));
        let element = lent.strip_prefix('[').and_then(|l| l.strip_suffix(']'));
        let element = element.unwrap_or_else(|| panic!("{name}: only slices are lent"));
        crossed.push((name.clone(), pointer(element, written)));
        crossed.push((format!("{name}_length"), by_value("usize", c)));
    }
    crossed
}

fn without_comments(header: &str) -> String {
    let mut parts = header.split("/*");
    let first = parts.next().unwrap_or_default().to_string();
    parts.fold(first, |text, part| text + part.split_once("*/").expect("a comment's end").1)
}

/// The declarations are those of a Rattle crate, each reply a number or a struct that is declared too.
fn compare(found: &Declared, from: &str, c: bool) {
    let exported = exported(from);
    assert!(!exported.entries.is_empty(), "{from} exports nothing");
    for (name, (_, reply)) in &exported.entries {
        assert!(reply == "usize" || exported.structs.contains_key(reply), "{name} replies with {reply}");
    }
    let entries = exported.entries.iter();
    let structs = exported.structs.iter();
    let expected = Declared {
        entries: entries.map(|(name, (all, reply))| (name.clone(), (crossing(all, c), by_value(reply, c)))).collect(),
        structs: structs.map(|(name, fields)| (by_value(name, c), crossing(fields, c))).collect(),
    };
    assert_eq!(found, &expected);
}

fn header() -> String {
    without_comments(&fs::read_to_string(root().join("bindings/tugrokt.h")).unwrap())
}

#[test]
fn in_rust() {
    let border = fs::read_to_string(root().join("bindings/src/border.rs")).unwrap();
    compare(&declared(&border, "pub fn "), "tugrokt", false);
}

#[test]
fn in_c() {
    compare(&declared_in_c(&header()), "tugrokt", true);
}

/// The library for tests, which these tests declare themselves.
#[test]
fn of_the_network() {
    let network = fs::read_to_string(root().join("tests/src/network.rs")).unwrap();
    let (block, _) = cut(cut(&network, "extern \"C\" {").1, "\n}");
    compare(&declared(block, "fn "), "network_border", false);
}

/// No other crate exports an entry.
#[test]
fn two_crates_export() {
    for name in crates() {
        let expected = name == "tugrokt" || name == "network_border";
        assert_eq!(!exported(&name).entries.is_empty(), expected, "{name}");
    }
}

/// The value of a number, of a named one, or of a sum or product of such.
fn value(text: &str, named: &BTreeMap<String, usize>) -> usize {
    let text = text.trim();
    let text = text.strip_prefix('(').and_then(|t| t.strip_suffix(')')).unwrap_or(text);
    if let Some((left, right)) = text.split_once(" + ") {
        return value(left, named) + value(right, named);
    }
    if let Some((left, right)) = text.split_once(" * ") {
        return value(left, named) * value(right, named);
    }
    let name = text.rsplit("::").next().unwrap();
    text.replace('_', "").parse().unwrap_or_else(|_| *named.get(name).unwrap_or_else(|| panic!("{name} is no number")))
}

/// The constants that lines `head` + NAME + one of `between` + EXPRESSION + `tail` state, in their order. What takes an argument is none.
fn constants(text: &str, head: &str, between: &[&str], tail: &str, known: &BTreeMap<String, usize>) -> BTreeMap<String, usize> {
    let mut all = known.clone();
    for line in text.lines().map(str::trim) {
        let Some(named) = line.strip_prefix(head) else { continue };
        let Some((name, rest)) = between.iter().find_map(|b| named.split_once(b)).filter(|(name, _)| !name.contains('(')) else { continue };
        let rest = rest.strip_suffix(tail).unwrap_or_else(|| panic!("{line}"));
        let number = value(rest, &all);
        assert!(all.insert(name.to_string(), number).is_none_or(|old| old == number), "{name} has two values");
    }
    all
}

/// The names of the Rattle crates.
fn crates() -> Vec<String> {
    fs::read_dir(root().join("crates")).unwrap().map(|e| e.unwrap().file_name().into_string().unwrap()).collect()
}

/// The sizes of a sheet, of a page and of a text that is written, in Rattle, in Rust and in C.
#[test]
fn numbers() {
    // Sizes are `usize`; the largest loader number is of the type of the lists.
    let types = [": usize = ", ": u16 = "];
    let of_rattle = |name: &str, known: &BTreeMap<String, usize>| constants(&rattle(name), "pub const ", &types, ";", known);
    let of_sheet = of_rattle("sheet", &BTreeMap::new());
    let mut sizes: BTreeMap<String, usize> = of_sheet.iter().filter(|(name, _)| name.starts_with("MAX_")).map(|(n, v)| (n.clone(), *v)).collect();
    for name in ["MAX_PAGE", "MAX_TEXT"] {
        // One crate says how long it can be.
        let said: Vec<String> = crates().into_iter().filter(|c| rattle(c).contains(&format!("pub const {name}: "))).collect();
        assert_eq!(said.len(), 1, "{name}: {said:?}");
        sizes.insert(name.into(), of_rattle(&said[0], &of_sheet)[name]);
    }
    let names: Vec<&str> = sizes.keys().map(String::as_str).collect();
    let expected = ["BOUNDARIES", "BYTES", "CELLS", "COUNT", "LOADER", "PAGE", "RULES", "SLOTS", "TEXT", "UNITS"].map(|n| format!("MAX_{n}"));
    assert_eq!(names, expected);

    let package = fs::read_to_string(root().join("bindings/src/lib.rs")).unwrap();
    assert_eq!(constants(&package, "pub const ", &types, ";", &BTreeMap::new()), sizes);
    assert_eq!(constants(&header().replace("TUGROKT_", ""), "#define ", &[" "], "", &BTreeMap::new()), sizes);
}
