//! The papers are about this repository: what they cite is there, what they name is called so, and the tables are whole.
#![forbid(unsafe_code)]

use std::collections::BTreeSet;
use std::fs;
use std::path::{Path, PathBuf};

fn root() -> PathBuf {
    Path::new(env!("CARGO_MANIFEST_DIR")).join("../..").canonicalize().expect("the repository's root")
}

fn read(path: &str) -> String {
    fs::read_to_string(root().join(path)).unwrap_or_else(|e| panic!("{path}: {e}"))
}

/// The files of a folder, and of the folders in it, but what is built.
fn files(folder: &Path, found: &mut Vec<PathBuf>) {
    let inside = fs::read_dir(folder).into_iter().flatten().flatten().map(|entry| entry.path());
    for path in inside.filter(|path| !["target", "out", ".git"].iter().any(|built| path.ends_with(built))) {
        if path.is_dir() { files(&path, found) } else { found.push(path) }
    }
}

/// The pages, each with its text.
fn papers() -> Vec<(PathBuf, String)> {
    let mut found = Vec::new();
    files(&root().join("docs"), &mut found);
    found.extend(["README.md", "NOTICE", "host/xhci_device/README.md"].map(|page| root().join(page)));
    found.into_iter().map(|path| (path.clone(), fs::read_to_string(path).expect("a page"))).collect()
}

/// The notes on the requests of document 02.
fn notes() -> Vec<String> {
    (1..=14).map(|n| format!("docs/requests/{n}.md")).collect()
}

/// The part of a page under a heading.
fn part<'a>(text: &'a str, heading: &str) -> &'a str {
    let rest = text.split(heading).nth(1).unwrap_or_else(|| panic!("no '{heading}'"));
    rest.split("\n## ").next().expect("the part")
}

/// The rows of the tables in a text, their heads too, each as its cells.
fn rows(text: &str) -> impl Iterator<Item = Vec<&str>> {
    let inner = text.lines().filter_map(|line| line.strip_prefix("| ")?.strip_suffix('|'));
    inner.map(|row| row.split('|').map(str::trim).collect())
}

/// What stands in backticks.
fn quoted(text: &str) -> impl Iterator<Item = &str> {
    text.split('`').skip(1).step_by(2)
}

/// Each of `a/{b,c}.d` by itself.
fn expanded(text: &str) -> Vec<String> {
    let braces = text.split_once('{').and_then(|(before, rest)| Some((before, rest.split_once('}')?)));
    match braces {
        None => vec![text.to_string()],
        Some((before, (inner, after))) => inner.split(',').map(|one| format!("{before}{one}{after}")).collect(),
    }
}

/// The paths of a text that begin with one of the repository's folders. C, F, c and x stand for any.
fn cited(text: &str) -> Vec<String> {
    let of_path = |c: char| c.is_ascii_alphanumeric() || "_./*{},-".contains(c);
    let words = text.split(|c: char| !of_path(c));
    let cut = |word: &str| match word.find('{') {
        None => word.split(',').next().unwrap_or(word).trim_end_matches(['.', '-']).to_string(),
        Some(_) => word.trim_end_matches(['.', ',', '-']).to_string(),
    };
    let in_folder = |path: &String| ["crates/", "host/", "docs/"].iter().any(|folder| path.starts_with(folder));
    let is_one = |path: &String| !path.contains('*') && !path.starts_with("host/target") && !path.contains("/C/");
    words.map(cut).filter(|path| in_folder(path) && is_one(path) && !path.starts_with("crates/c/")).collect()
}

#[test]
fn cited_files_exist() {
    let mut count = 0;
    let mut missing = BTreeSet::new();
    for (page, text) in papers() {
        for path in cited(&text).iter().flat_map(|path| expanded(path)) {
            if !root().join(&path).exists() {
                missing.insert(format!("{} cites {path}", page.display()));
            }
            count += 1;
        }
    }
    assert!(missing.is_empty(), "{missing:#?}");
    assert!(count > 100, "{count} citations");
}

/// A link leads to a file beside the page.
#[test]
fn links_lead_somewhere() {
    for (page, text) in papers() {
        for link in text.split("](").skip(1).filter_map(|rest| rest.split(')').next()) {
            let there = page.parent().expect("a folder").join(link.split('#').next().unwrap_or(link));
            assert!(link.starts_with("https://") || there.exists(), "{} links {link}", page.display());
        }
    }
}

/// Who begins with README.md finds every page.
#[test]
fn every_page_is_linked() {
    let readme = read("README.md");
    for (page, _) in papers() {
        let name = page.strip_prefix(root()).expect("a page of the repository").display().to_string();
        let is_note = name.starts_with("docs/requests/");
        assert!(!name.starts_with("docs/") || is_note || readme.contains(&format!("({name})")), "README.md: {name}");
    }
}

/// A part of a page that is named behind the page, in quotation marks, is there.
#[test]
fn named_parts_exist() {
    let mut found = Vec::new();
    ["docs", "crates", "host", ".ci"].iter().for_each(|folder| files(&root().join(folder), &mut found));
    found.push(root().join("README.md"));
    let mut missing = Vec::new();
    let mut count = 0;
    for (path, text) in found.iter().filter_map(|path| Some((path, fs::read_to_string(path).ok()?))) {
        for named in text.split("docs/").skip(1) {
            let Some((page, rest)) = named.split_once(".md, \"").filter(|(page, _)| page.len() < 20) else {
                continue;
            };
            let heading = rest.split('"').next().unwrap_or(rest);
            let there = fs::read_to_string(root().join(format!("docs/{page}.md"))).unwrap_or_default();
            if !there.contains(heading) {
                missing.push(format!("{}: docs/{page}.md, {heading}", path.display()));
            }
            count += 1;
        }
    }
    assert!(missing.is_empty(), "{missing:#?}");
    assert!(count > 10, "{count} parts");
}

/// A page is named in capitals: it is in docs, at the root, or in the package.
#[test]
fn named_pages_exist() {
    let mut found = Vec::new();
    ["docs", "crates", "host", ".ci"].iter().for_each(|folder| files(&root().join(folder), &mut found));
    found.push(root().join("README.md"));
    let mut count = 0;
    for (path, text) in found.iter().filter_map(|path| Some((path, fs::read_to_string(path).ok()?))) {
        for word in text.split(|c: char| !(c.is_ascii_uppercase() || "-.md".contains(c))) {
            let Some((page, _)) = word.split_once(".md").filter(|(page, _)| page.len() > 1) else {
                continue;
            };
            let there = |folder: &str| root().join(folder).join(format!("{page}.md")).exists();
            assert!(["", "docs", "host/xhci_device"].into_iter().any(there), "{} names {page}.md", path.display());
            count += 1;
        }
    }
    assert!(count > 50, "{count} names");
}

/// The text of an edit of a crate, if there is one.
fn edit(name: &str, edit: &str) -> Option<String> {
    let mut found = Vec::new();
    files(&root().join("crates").join(name), &mut found);
    let path = found.into_iter().find(|path| path.ends_with(format!("{edit}.edit")))?;
    fs::read_to_string(path).ok()
}

/// What is not so of the edits that a part of a cell names, as in "`edit`, `edit` of crate, at `function`, `law` (what is wrong)": they are
/// there, and each function and law refuses one of them.
fn edits_missing(cell: &str) -> Vec<String> {
    let Some((edits, of)) = cell.split_once(" of ") else {
        return vec![format!("'{cell}' names no crate")];
    };
    let name = of.split([',', ' ', ':']).next().expect("a crate");
    let texts: Vec<Option<String>> = quoted(edits).map(|named| edit(name, named)).collect();
    let gone = quoted(edits).zip(&texts).filter(|(_, text)| text.is_none());
    let mut missing: Vec<String> = gone.map(|(named, _)| format!("no edit {named} of {name}")).collect();
    let lines = texts.iter().flatten().flat_map(|text| text.lines());
    let refusing: Vec<&str> =
        lines.filter_map(|line| line.strip_prefix("refused: ")).flat_map(str::split_whitespace).collect();
    let at = of.split_once(", at ").map_or("", |(_, at)| at.split(" (").next().unwrap_or(at));
    let refuses = |at: &str| refusing.iter().any(|name| *name == at || name.ends_with(&format!(":{at}")));
    let unrefused = quoted(at.split(": ").next().unwrap_or(at)).filter(|at| !refuses(at));
    missing.extend(unrefused.map(|at| format!("{at} refuses nothing of '{cell}'")));
    missing
}

#[test]
fn edits_that_papers_name_exist() {
    let mut pages = vec![("docs/ACCEPTANCE.md".to_string(), "## What must not pass")];
    pages.extend(notes().into_iter().map(|note| (note, "## Asked, and what meets it")));
    let mut missing = Vec::new();
    let mut count = 0;
    for (page, heading) in &pages {
        let text = read(page);
        for cells in rows(part(&text, heading)).skip(1) {
            assert_eq!(cells.len(), 3, "{page}: {cells:?}");
            for cell in cells[2].split("; ").filter(|cell| !cell.is_empty()) {
                missing.extend(edits_missing(cell).iter().map(|what| format!("{page}: {what}")));
                count += 1;
            }
        }
    }
    assert!(missing.is_empty(), "{missing:#?}");
    assert!(count > 200, "{count} edits");
}

/// The words of the sources, and the names of files and crates.
fn words_of_the_sources() -> BTreeSet<String> {
    let mut found = vec![root().join("crates.txt")];
    ["crates", "host", ".ci"].iter().for_each(|folder| files(&root().join(folder), &mut found));
    let mut words = BTreeSet::new();
    for path in found {
        words.extend(path.file_stem().and_then(|stem| stem.to_str()).map(str::to_string));
        let text = fs::read_to_string(&path).unwrap_or_default();
        words.extend(text.split(|c: char| !(c.is_ascii_alphanumeric() || c == '_')).map(str::to_string));
    }
    words
}

/// Pages in which a name in backticks is one of the sources. (In the others it may be crab-usb's, a machine's, or a number.)
const NAMING: [&str; 11] = [
    "ACCEPTANCE",
    "BEHAVIOUR",
    "CHECK-TIMES",
    "DECISIONS",
    "INTEGRATION",
    "OTHER-MACHINES",
    "PROOF-NOTES",
    "QEMU",
    "RECORDING",
    "REVIEW",
    "THEOREM",
];

#[test]
fn names_exist() {
    let words = words_of_the_sources();
    let mut pages: Vec<String> = NAMING.iter().map(|page| format!("docs/{page}.md")).collect();
    pages.extend(notes());
    let mut missing = Vec::new();
    let mut count = 0;
    for page in &pages {
        let text = read(page);
        let text = if page.contains("requests") { part(&text, "## Asked, and what meets it") } else { &text };
        let is_word = |name: &str| name.chars().all(|c| c.is_ascii_alphanumeric() || c == '_') && name.len() > 1;
        // memmove is the C library's, which archives need and no source names.
        let is_name = |name: &&str| is_word(name) && *name != "memmove";
        let named = text.lines().filter(|line| !line.starts_with("    ")).flat_map(quoted).filter(is_name);
        let named: Vec<&str> = named.collect();
        count += named.len();
        let gone = named.into_iter().filter(|name| !words.contains(*name));
        missing.extend(gone.map(|name| format!("{page}: {name}")));
    }
    assert!(missing.is_empty(), "{missing:#?}");
    assert!(count > 500, "{count} names");
}

/// The functions on the way of a claim that docs/REVIEW.md shows stand in the files that it names.
#[test]
fn the_way_of_a_claim_is_there() {
    let text = read("docs/REVIEW.md");
    let way = part(&text, "The way of a claim");
    let mut count = 0;
    for (names, rest) in way.lines().filter_map(|line| line.strip_prefix("    ")?.split_once(" crates/")) {
        let path = format!("crates/{}", rest.split(' ').next().unwrap_or(rest));
        let file = read(&path);
        for name in names.trim().split(", ") {
            let name = name.rsplit("::").next().unwrap_or(name);
            assert!(file.contains(&format!("fn {name}(")), "{path}: {name}");
            count += 1;
        }
    }
    assert!(count > 10, "{count} functions");
}

/// Every file of definitions stands in the table of docs/REVIEW.md, as `crate/File, File`.
#[test]
fn the_reviewer_s_table_has_every_definition() {
    let text = read("docs/REVIEW.md");
    let table = text.split("| file |").nth(1).and_then(|rest| rest.split("\n\n").next()).expect("the table");
    let mut listed = BTreeSet::new();
    for cells in rows(table) {
        let mut folder = "";
        for name in cells[0].split(", ") {
            let (of, file) = name.split_once('/').unwrap_or((folder, name));
            folder = of;
            assert!(listed.insert(format!("{of}/{file}")), "{of}/{file} stands twice");
        }
    }
    let mut found = Vec::new();
    files(&root().join("crates"), &mut found);
    let is_definition = |path: &&PathBuf| path.parent().is_some_and(|parent| parent.ends_with("specs"));
    let name = |path: &PathBuf| {
        let folder = path.parent()?.parent()?.file_name()?.to_str()?.to_string();
        Some(format!("{folder}/{}", path.file_stem()?.to_str()?))
    };
    let there: BTreeSet<String> = found.iter().filter(is_definition).filter_map(name).collect();
    let there: BTreeSet<String> = there.into_iter().filter(|name| !name.ends_with("/Lib")).collect();
    assert_eq!(listed, there);
}

/// NOTICE names each derived crate once, and the package has the same text. A file of a derived crate begins with what of the original
/// it is; the programs that replay the original's sample are not derived from it.
#[test]
fn notice_names_each_derived_crate_once() {
    let notice = read("NOTICE");
    assert_eq!(notice, read("host/xhci_device/NOTICE"));
    let mut named = BTreeSet::new();
    for path in cited(&notice).into_iter().filter(|path| path.starts_with("crates/")) {
        assert!(named.insert(path.clone()), "{path} stands twice");
    }
    let mut found = Vec::new();
    files(&root().join("crates"), &mut found);
    for path in found.iter().filter(|path| path.extension().is_some_and(|kind| kind == "rt" || kind == "antt")) {
        let name = path.strip_prefix(root()).expect("a file of the repository").display().to_string();
        let folder: Vec<&str> = name.split('/').take(2).collect();
        let text = fs::read_to_string(path).expect("a source");
        let first = text.lines().next().unwrap_or_default();
        let derived = first.contains("of the original") && !name.starts_with("crates/replay_");
        assert!(!derived || named.contains(&folder.join("/")), "NOTICE: {name}");
    }
}

/// What docs/THEOREM.md shows of the theorem's file stands there, line by line.
#[test]
fn the_theorem_is_the_one_that_is_proved() {
    let page = read("docs/THEOREM.md");
    let file = read("crates/theorem_slot/specs/Theorem.antt");
    let shown = page.split("```\n").nth(1).expect("the statement");
    let there: BTreeSet<&str> = file.lines().map(str::trim).collect();
    for line in shown.lines().map(str::trim) {
        assert!(there.contains(line), "docs/THEOREM.md: {line}");
    }
    assert!(shown.contains("Demand3 = AfterBringUp Kept"));
}

/// A decision is a line: a point, what was decided, and why.
#[test]
fn a_decision_has_its_reason() {
    let text = read("docs/DECISIONS.md");
    let mut count = 0;
    for cells in rows(&text) {
        assert!(cells.len() == 3 && cells.iter().all(|cell| !cell.is_empty()), "{cells:?}");
        let words = cells.iter().flat_map(|cell| cell.split_whitespace()).count();
        assert!(words <= 90, "{words} words: {cells:?}");
        count += 1;
    }
    assert!(count > 100, "{count} decisions");
}

/// Pages say what is, not how it came about.
#[test]
fn pages_tell_no_history() {
    for (page, text) in papers() {
        let told = [
            "this landing",
            "the landing",
            "checks beside",
            "with other checks",
            "beside other work",
            "on this tree",
            "kit before this",
            "at a time on",
            "checked together",
            "Last run",
        ];
        for told in told {
            assert!(!text.contains(told), "{}: '{told}'", page.display());
        }
    }
}
