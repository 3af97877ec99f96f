//! A picture of a word's bits: numbers above the cells that they bound.

use crate::page;

pub struct Cell {
    pub name: String,
    pub high: u32,
    pub low: u32,
}

impl Cell {
    fn value(&self, word: u64) -> u64 {
        word << (63 - self.high) >> (63 - self.high + self.low)
    }

    fn most(&self) -> u64 {
        u64::MAX >> (63 - self.high + self.low)
    }

    /// A cell that has its number for a name.
    fn fixed(&self) -> Option<u64> {
        self.name.parse().ok()
    }
}

pub struct Picture(pub Vec<Cell>);

/// The numbers of a line with the columns that they begin at.
fn numbers(line: &str) -> Vec<(usize, u32)> {
    let starts = |at: &usize| line[*at..].starts_with(|c: char| c.is_ascii_digit());
    let begins = |at: &usize| starts(at) && (*at == 0 || !starts(&(at - 1)));
    let number = |at: usize| (at, line[at..].split_whitespace().next().and_then(|n| n.parse().ok()).expect("a number"));
    (0..line.len()).filter(begins).map(number).collect()
}

/// The cells of a picture, which cover its word from the highest bit to bit 0.
pub fn picture(name: &str) -> Picture {
    let lines = page::marked(&format!("picture {name}"));
    let [_, above, border, row, ..] = lines[..] else {
        panic!("picture '{name}'");
    };
    let walls: Vec<usize> = border.match_indices('+').map(|(at, _)| at).collect();
    let bounds = numbers(above);
    let cell = |pair: &[usize]| {
        let (from, to) = (pair[0], pair[1]);
        assert!(
            row[from..].starts_with('|') && row[to..].starts_with('|'),
            "picture '{name}': a wall at {from} or {to}"
        );
        let inside: Vec<u32> = bounds.iter().filter(|(at, _)| (from..to).contains(at)).map(|(_, n)| *n).collect();
        assert!(matches!(inside.len(), 1 | 2), "picture '{name}': the cell at {from} has {} numbers", inside.len());
        Cell { name: row[from + 1..to].trim().to_string(), high: inside[0], low: inside[inside.len() - 1] }
    };
    let cells: Vec<Cell> = walls.windows(2).map(cell).collect();
    let whole = cells.windows(2).all(|pair| pair[0].low == pair[1].high + 1);
    let sorted = cells.iter().all(|cell| cell.high >= cell.low);
    assert!(whole && sorted && cells[cells.len() - 1].low == 0, "picture '{name}' leaves bits out");
    Picture(cells)
}

impl Picture {
    pub fn bits(&self) -> u32 {
        self.0[0].high + 1
    }

    /// The word of these fields; each cell is given, or is fixed.
    pub fn pack(&self, fields: &[(String, u64)]) -> u64 {
        let given = |cell: &Cell| fields.iter().find(|(name, _)| *name == cell.name).map(|(_, value)| *value);
        let bits = |cell: &Cell| {
            let value = cell.fixed().or(given(cell)).unwrap_or_else(|| panic!("'{}' is not given", cell.name));
            assert!(value <= cell.most(), "{value} is too much for '{}'", cell.name);
            value << cell.low
        };
        let named = self.0.iter().filter(|cell| cell.fixed().is_none()).count();
        assert_eq!(named, fields.len(), "each field once");
        self.0.iter().map(bits).sum()
    }

    pub fn of(&self, fields: &[(&str, u64)]) -> u64 {
        self.pack(&fields.iter().map(|(name, value)| (name.to_string(), *value)).collect::<Vec<_>>())
    }

    pub fn field(&self, name: &str, word: u64) -> u64 {
        self.0.iter().find(|cell| cell.name == name).unwrap_or_else(|| panic!("no '{name}'")).value(word)
    }

    /// The field's highest value.
    pub fn most(&self, name: &str) -> u64 {
        self.0.iter().find(|cell| cell.name == name).unwrap_or_else(|| panic!("no '{name}'")).most()
    }
}
