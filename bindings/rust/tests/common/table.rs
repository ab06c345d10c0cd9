//! The tables of docs/LENGTH.md: rows of two cells, a name and how many bytes that is. The bytes are a formula; in a
//! worked card they are a number, or the formula with its numbers.

/// A table: the first cell of its head, and its rows.
pub struct Table<'a> {
    pub head: &'a str,
    pub rows: Vec<(&'a str, &'a str)>,
}

impl<'a> Table<'a> {
    /// All tables of a page, each of which stands between blank lines.
    pub fn all(page: &'a str) -> Vec<Table<'a>> {
        page.split("\n\n").filter(|block| block.starts_with('|')).map(Table::of).collect()
    }

    fn of(block: &'a str) -> Table<'a> {
        let mut lines = block.lines();
        let (head, bytes) = cells(lines.next().unwrap_or_default());
        assert_eq!((bytes, lines.next()), ("bytes", Some("|---|---|")), "not the head of a table of bytes: {head}");
        Table { head, rows: lines.map(cells).collect() }
    }
}

fn cells(line: &str) -> (&str, &str) {
    let inner = line.strip_prefix("| ").and_then(|rest| rest.strip_suffix(" |")).unwrap_or_default();
    match inner.split(" | ").collect::<Vec<_>>()[..] {
        [name, bytes] => (name, bytes),
        _ => panic!("not a row of two cells: {line}"),
    }
}

/// A row by its name, and what its letters stand for.
pub struct Row {
    pub name: &'static str,
    pub letters: Vec<(&'static str, usize)>,
}

impl Row {
    fn letter(&self, word: &str) -> Option<usize> {
        self.letters.iter().find(|(letter, _)| *letter == word).map(|&(_, number)| number)
    }

    /// A text with numbers in the place of the letters.
    fn filled(&self, text: &str) -> String {
        let word = |word| self.letter(word).map_or(String::from(word), |number| thousands(number as i64));
        text.split(' ').map(word).collect::<Vec<_>>().join(" ")
    }

    /// The row's name, with its numbers.
    pub fn told(&self) -> String {
        self.filled(self.name)
    }

    /// A formula with its numbers and, where more than one stands in it, what it gives.
    pub fn worked(&self, formula: &str) -> String {
        let terms = self.filled(formula);
        if terms.contains(' ') {
            format!("{terms} = {}", thousands(self.value(formula)))
        } else {
            terms
        }
    }

    /// What a formula gives: terms joined by " + " and " − ", each a number, a letter, or one times another by " × ".
    pub fn value(&self, formula: &str) -> i64 {
        let number = |word: &str| word.parse().unwrap_or_else(|_| panic!("{word} is no number, in {formula}"));
        let factor = |word: &str| self.letter(word).map_or_else(|| number(word), |letter| letter as i64);
        let product = |term: &str| term.split(" × ").map(factor).product::<i64>();
        let term = |term: &str| term.strip_prefix('−').map_or_else(|| product(term), |less| -product(less));
        formula.replace(" − ", " + −").split(" + ").map(term).sum()
    }
}

/// A number as the page writes it, with a comma before each three digits but the first.
pub fn thousands(number: i64) -> String {
    let digits: Vec<char> = number.unsigned_abs().to_string().chars().collect();
    let groups: Vec<String> = digits.rchunks(3).rev().map(String::from_iter).collect();
    format!("{}{}", if number < 0 { "−" } else { "" }, groups.join(","))
}
