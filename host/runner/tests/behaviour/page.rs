//! The pages as they stand: their tables and pictures by their marks, `<!-- checked: NAME -->`.

use std::sync::LazyLock;

static PAGE: LazyLock<String> = LazyLock::new(|| {
    let paths = [
        concat!(env!("CARGO_MANIFEST_DIR"), "/../../docs/FORMATS.md"),
        concat!(env!("CARGO_MANIFEST_DIR"), "/../../docs/BEHAVIOUR.md"),
        concat!(env!("CARGO_MANIFEST_DIR"), "/../../docs/THEOREM.md"),
        concat!(env!("CARGO_MANIFEST_DIR"), "/../../docs/INTEGRATION.md"),
    ];
    paths.map(|path| std::fs::read_to_string(path).expect("a page")).join("\n")
});

fn mark(line: &str) -> Option<&str> {
    line.strip_prefix("<!-- checked: ")?.strip_suffix(" -->")
}

/// The marks, in order.
pub fn marks() -> Vec<&'static str> {
    PAGE.lines().filter_map(mark).collect()
}

/// The lines from a mark to the next empty one.
pub fn marked(name: &str) -> Vec<&'static str> {
    let at = PAGE.lines().position(|line| mark(line) == Some(name));
    let at = at.unwrap_or_else(|| panic!("the page has no mark '{name}'"));
    PAGE.lines().skip(at + 1).take_while(|line| !line.is_empty()).collect()
}

/// The cells of a line of a table, without blanks and backquotes around them.
fn cells(line: &str) -> Vec<String> {
    let inner = line.trim().trim_start_matches('|').trim_end_matches('|');
    inner.split('|').map(|cell| cell.trim().to_string()).collect()
}

/// The lines of a table below its titles, cut into cells: as many as there are titles.
pub fn table(name: &str) -> Vec<Vec<String>> {
    let lines = marked(name);
    let width = cells(lines[0]).len();
    let rows: Vec<Vec<String>> = lines[2..].iter().map(|line| cells(line)).collect();
    assert!(!rows.is_empty() && rows.iter().all(|row| row.len() == width), "table '{name}'");
    rows
}

/// What stands between backquotes.
pub fn quoted(cell: &str) -> Vec<&str> {
    cell.split('`').skip(1).step_by(2).collect()
}

pub fn hex(text: &str) -> u64 {
    u64::from_str_radix(text.trim_start_matches("0x"), 16).unwrap_or_else(|_| panic!("'{text}' is not hexadecimal"))
}

/// Decimal, or hexadecimal behind 0x.
pub fn number(text: &str) -> u64 {
    match text.strip_prefix("0x") {
        Some(digits) => hex(digits),
        None => text.parse().unwrap_or_else(|_| panic!("'{text}' is not a number")),
    }
}

/// Hexadecimal words; `W×k` is k times W, `W+S×k` are k words that rise by S.
pub fn words(cell: &str) -> Vec<u64> {
    let text = quoted(cell).join(" ");
    let one = |word: &str| {
        let (word, times) = word.split_once('×').unwrap_or((word, "1"));
        let (first, step) = word.split_once('+').unwrap_or((word, "0"));
        let (first, step) = (hex(first), hex(step));
        (0..number(times)).map(move |i| first + i * step)
    };
    text.split_whitespace().flat_map(one).collect()
}

/// `name 1, other 2` as pairs.
pub fn pairs(text: &str) -> Vec<(String, u64)> {
    let pair = |part: &str| {
        let (name, value) = part.trim().rsplit_once(' ').unwrap_or_else(|| panic!("'{part}'"));
        (name.to_string(), number(value))
    };
    text.split(',').map(pair).collect()
}
