//! The tables and the marked blocks of a text in Markdown.

pub struct Document<'a> {
    text: &'a str,
}

pub type Row<'a> = Vec<&'a str>;

/// Columns in words for people, by their headings. The journal's table, of parts, is
/// such words too.
const IN_WORDS: [&str; 10] = [
    "Number in the answer",
    "Cents in the answer",
    "When",
    "What it counts",
    "Prizes by",
    "From",
    "Limit",
    "Why",
    "Meaning",
    // What an example begins with: it may begin with other prizes.
    "Major prizes",
];

impl<'a> Document<'a> {
    pub fn of(text: &'a str) -> Document<'a> {
        Document { text }
    }

    /// The rows of the table with these first two headings.
    pub fn table(&self, first: &str, second: &str) -> Vec<Row<'a>> {
        let rows = self.table_with_headings(&[first, second]);
        // Behind the headings and the line under them.
        rows.into_iter().skip(2).collect()
    }

    /// The lines of the table that begins with these headings.
    pub fn table_with_headings(&self, headings: &[&str]) -> Vec<Row<'a>> {
        let lines = self.text.lines().map(cells);
        let lines = lines.skip_while(|line| !line.starts_with(headings));
        lines.take_while(|line| !line.is_empty()).collect()
    }

    /// The lines of each block that is marked with this word, without comments.
    pub fn blocks(&self, word: &str) -> Vec<Vec<&'a str>> {
        let blocks = self.text.split("```").skip(1).step_by(2);
        let marked = blocks.filter_map(|block| block.strip_prefix(word)?.strip_prefix('\n'));
        marked.map(|block| block.lines().map(without_comment).collect()).collect()
    }

    pub fn says(&self, sentence: &str) -> bool {
        self.text.contains(sentence)
    }
}

fn cells(line: &str) -> Row<'_> {
    match line.trim().strip_prefix('|').and_then(|line| line.strip_suffix('|')) {
        Some(line) => line.split('|').map(str::trim).collect(),
        None => Vec::new(),
    }
}

fn without_comment(line: &str) -> &str {
    line.split(';').next().unwrap_or_default().trim_end()
}

/// Whether the digit at this place stands in a marked block or in a table, and not
/// in words for people.
pub fn is_checked(text: &str, at: usize) -> bool {
    let start = text[..at].rfind('\n').map_or(0, |end| end + 1);
    let (before, line) = (&text[start..at], text[start..].lines().next().unwrap_or_default());
    if text[..at].matches("```").count() % 2 == 1 {
        // Other balls may be as good.
        return !before.contains(';') && !line.starts_with("> 04");
    }
    if !line.trim().starts_with('|') {
        return false;
    }
    let column = before.matches('|').count() - 1;
    let above = text[..start].lines().rev().take_while(|line| line.trim().starts_with('|'));
    let headings = cells(above.last().unwrap_or(line));
    headings[0] != "Part" && !IN_WORDS.contains(&headings[column])
}

/// A number with commas between thousands.
pub fn number(cell: &str) -> Result<i128, String> {
    cell.replace(',', "").parse().map_err(|_| format!("{cell:?} is no number"))
}

/// Numbers between semicolons.
pub fn numbers(cell: &str) -> Result<Vec<i128>, String> {
    cell.split("; ").map(number).collect()
}

/// Numbers from and to.
pub fn span(cell: &str) -> Result<std::ops::RangeInclusive<i128>, String> {
    let (from, to) = cell.split_once(" to ").ok_or_else(|| format!("{cell:?} is no span"))?;
    Ok(number(from)?..=number(to)?)
}

/// The rule that a checked value keeps to.
pub fn same<T: PartialEq + std::fmt::Debug>(what: &str, said: T, found: T) -> Result<(), String> {
    if said == found {
        return Ok(());
    }
    Err(format!("{what}: the document says {said:?}, the reference {found:?}"))
}
