//! Documents in Markdown, cut into their parts, each with its line; and how what fails in them is told.

use std::collections::BTreeSet;
use std::fmt::Display;
use std::fs;
use std::ops::Range;
use std::path::{Path, PathBuf};

pub fn root() -> PathBuf {
    Path::new(env!("CARGO_MANIFEST_DIR")).join("../..")
}

pub fn read(path: &str) -> String {
    fs::read_to_string(root().join(path)).unwrap_or_else(|_| panic!("{path} can be read"))
}

/// Prints every failing place.
pub fn assert_none(failures: &[String]) {
    assert!(failures.is_empty(), "\n{}\n", failures.join("\n"));
}

/// The one place that fails, if it does.
pub fn one<T>(answer: Result<T, String>) -> Vec<String> {
    Vec::from_iter(answer.err())
}

/// All places that fail; or the one without which the others cannot be looked for.
pub fn all(failures: Result<Vec<String>, String>) -> Vec<String> {
    failures.unwrap_or_else(|failure| vec![failure])
}

/// A file's text, with the name by which places in it are told.
#[derive(Clone, Debug)]
pub struct Source {
    pub name: String,
    pub text: String,
}

impl Source {
    pub fn new(name: &str, text: &str) -> Source {
        let [name, text] = [name, text].map(str::to_string);
        Source { name, text }
    }

    pub fn read(name: &str) -> Source {
        Source::new(name, &read(name))
    }

    /// The lines, with their numbers from 1.
    pub fn lines(&self) -> impl Iterator<Item = (usize, &str)> {
        (1..).zip(self.text.lines())
    }

    /// What fails, with its place.
    pub fn at(&self, line: usize, what: impl Display) -> String {
        format!("{}:{line}: {what}", self.name)
    }
}

/// A part of a paragraph, and the line on which it begins.
#[derive(Clone, Debug)]
pub enum Part {
    Text(String),
    /// What stands between backticks.
    Code(String),
    /// `[text](target)`, or `[text]` alone.
    Link(String, Option<String>),
}

#[derive(Clone, Debug)]
pub struct Placed {
    pub line: usize,
    pub part: Part,
}

#[derive(Clone, Copy, Debug, PartialEq, Eq)]
pub enum Kind {
    Paragraph,
    /// An item of a list, up to the next one or an empty line.
    Item,
    /// A row of a table.
    Row,
}

pub struct Block {
    pub line: usize,
    pub kind: Kind,
    pub text: String,
}

pub struct Heading {
    pub line: usize,
    /// How many `#` it has.
    pub level: usize,
    pub text: String,
}

/// What stands between fences; the first of the lines is behind `line`.
pub struct Fence {
    pub line: usize,
    pub info: String,
    pub lines: Vec<String>,
}

pub struct Row {
    pub line: usize,
    pub cells: Vec<String>,
}

pub struct Table {
    pub line: usize,
    pub header: Vec<String>,
    pub rows: Vec<Row>,
}

/// All lines of a document, as a section.
pub const WHOLE: Range<usize> = 1..usize::MAX;

/// `[label]: target`.
pub struct Definition {
    pub line: usize,
    pub label: String,
    pub target: String,
}

pub struct Document {
    pub source: Source,
    pub blocks: Vec<Block>,
    pub headings: Vec<Heading>,
    pub fences: Vec<Fence>,
    pub tables: Vec<Table>,
    pub definitions: Vec<Definition>,
}

impl Document {
    pub fn read(name: &str) -> Document {
        Document::parse(&Source::read(name))
    }

    pub fn parse(source: &Source) -> Document {
        let mut document = Document {
            source: source.clone(),
            blocks: Vec::new(),
            headings: Vec::new(),
            fences: Vec::new(),
            tables: Vec::new(),
            definitions: Vec::new(),
        };
        // the backticks of the fence that is open, and the kind of block that may go on
        let (mut open, mut going_on) = (None, None);
        for (line, content) in source.lines() {
            let before = going_on.take();
            if let Some(known) = open {
                if content.trim() == known {
                    open = None;
                } else {
                    let fence = document.fences.last_mut().expect("the open fence");
                    fence.lines.push(content.to_string());
                }
            } else if let Some(ticks) = fence_ticks(content) {
                open = Some(ticks);
                document.add_fence(line, content.trim().trim_start_matches('`'));
            } else if let Some((level, text)) = heading(content) {
                let text = text.to_string();
                document.headings.push(Heading { line, level, text });
            } else if let Some((label, target)) = definition(content) {
                document.definitions.push(Definition {
                    line,
                    label,
                    target,
                });
            } else if !content.trim().is_empty() {
                going_on = Some(document.add_content(line, content, before));
            }
        }
        document
    }

    fn add_fence(&mut self, line: usize, info: &str) {
        self.fences.push(Fence {
            line,
            info: info.trim().to_string(),
            lines: Vec::new(),
        });
    }

    /// Adds a line to the block that goes on, or begins another one. The kind of block is returned.
    fn add_content(&mut self, line: usize, content: &str, going_on: Option<Kind>) -> Kind {
        let row = content.trim_start().starts_with('|');
        let kind = match behind_marker(content) {
            _ if row => Kind::Row,
            Some(_) => Kind::Item,
            None => Kind::Paragraph,
        };
        if row {
            self.add_row(line, content, going_on == Some(Kind::Row));
        }
        let joins = kind == Kind::Paragraph && going_on.is_some_and(|kind| kind != Kind::Row);
        match self.blocks.last_mut().filter(|_| joins) {
            Some(block) => {
                block.text = format!("{}\n{content}", block.text);
                block.kind
            }
            None => {
                let text = content.to_string();
                self.blocks.push(Block { line, kind, text });
                kind
            }
        }
    }

    /// Adds a row to the table that goes on, or begins one. The line between header and rows is left out.
    fn add_row(&mut self, line: usize, content: &str, going_on: bool) {
        let cells = cells(content);
        let rule = |cell: &String| !cell.is_empty() && cell.trim_matches(['-', ':']).is_empty();
        match self.tables.last_mut().filter(|_| going_on) {
            Some(_) if cells.iter().all(rule) => {}
            Some(table) => table.rows.push(Row { line, cells }),
            None => self.tables.push(Table {
                line,
                header: cells,
                rows: Vec::new(),
            }),
        }
    }

    pub fn name(&self) -> &str {
        &self.source.name
    }

    pub fn at(&self, line: usize, what: impl Display) -> String {
        self.source.at(line, what)
    }

    /// The parts of all paragraphs, items and rows.
    pub fn parts(&self) -> Vec<Placed> {
        let blocks = self.blocks.iter();
        blocks
            .flat_map(|block| parts_of(&block.text, block.line))
            .collect()
    }

    /// Anchors of its headings, by GitHub's rule: lower case, letters, digits, hyphens and underscores, a hyphen for
    /// each space; one that is there already gets a number.
    pub fn anchors(&self) -> BTreeSet<String> {
        let mut anchors = BTreeSet::new();
        for heading in &self.headings {
            let kept = heading.text.to_lowercase().replace(' ', "-");
            let kept: String = kept
                .chars()
                .filter(|c| c.is_alphanumeric() || *c == '-' || *c == '_')
                .collect();
            let mut anchor = kept.clone();
            for n in 1.. {
                if anchors.insert(anchor) {
                    break;
                }
                anchor = format!("{kept}-{n}");
            }
        }
        anchors
    }

    /// The lines from a heading to before the next one of its level or above.
    pub fn section(&self, heading: &Heading) -> Range<usize> {
        let mut behind = self.headings.iter().filter(|h| h.line > heading.line);
        let next = behind.find(|h| h.level <= heading.level);
        heading.line..next.map_or(usize::MAX, |next| next.line)
    }

    /// The section under a heading that is given as it is written: "## The layers".
    pub fn under(&self, written: &str) -> Result<Range<usize>, String> {
        let known = heading(written);
        let mut headings = self.headings.iter();
        let found = headings.find(|h| known == Some((h.level, h.text.as_str())));
        let found = found.ok_or_else(|| self.at(1, format!("has no heading \"{written}\"")))?;
        Ok(self.section(found))
    }

    /// The last heading above a line.
    pub fn heading_above(&self, line: usize) -> Option<&Heading> {
        self.headings.iter().rfind(|heading| heading.line < line)
    }

    /// The tables in a section with these header cells.
    pub fn tables_in(&self, section: &Range<usize>, header: &[&str]) -> Vec<&Table> {
        let tables = self.tables.iter();
        tables
            .filter(|table| section.contains(&table.line) && table.header == header)
            .collect()
    }

    /// The only table in a section with these header cells.
    pub fn table_in(&self, section: &Range<usize>, header: &[&str]) -> Result<&Table, String> {
        let tables = self.tables_in(section, header);
        self.only(&tables, section.start, || {
            format!("table \"| {} |\"", header.join(" | "))
        })
    }

    /// The only table with these header cells.
    pub fn table(&self, header: &[&str]) -> Result<&Table, String> {
        self.table_in(&WHOLE, header)
    }

    /// The only fence with this info string.
    pub fn fence(&self, info: &str) -> Result<&Fence, String> {
        let fences = self.fences.iter().filter(|fence| fence.info == info);
        self.only(&fences.collect::<Vec<_>>(), 1, || {
            format!("block of \"{info}\"")
        })
    }

    fn only<'a, T>(
        &self,
        found: &[&'a T],
        line: usize,
        what: impl Fn() -> String,
    ) -> Result<&'a T, String> {
        match found {
            [only] => Ok(only),
            _ => Err(self.at(line, format!("{} in place of one {}", found.len(), what()))),
        }
    }
}

/// The backticks of a line that opens or ends a fence.
fn fence_ticks(line: &str) -> Option<&str> {
    let line = line.trim_start();
    let len = line.len() - line.trim_start_matches('`').len();
    (len >= 3).then_some(&line[..len])
}

/// Level and text of a heading.
fn heading(line: &str) -> Option<(usize, &str)> {
    let behind = line.trim_start_matches('#');
    let text = behind.strip_prefix(' ')?.trim();
    let level = line.len() - behind.len();
    (level > 0).then_some((level, text))
}

/// `[label]: target`, as a line.
fn definition(line: &str) -> Option<(String, String)> {
    let (label, target) = line.strip_prefix('[')?.split_once("]: ")?;
    Some((label.to_string(), target.trim().to_string()))
}

/// What stands behind the marker of an item, `-`, `*` or a number with its full stop.
pub fn behind_marker(line: &str) -> Option<&str> {
    let line = line.trim_start();
    let behind_number = line.trim_start_matches(|c: char| c.is_ascii_digit());
    let marker = if behind_number.len() < line.len() {
        behind_number.strip_prefix('.')
    } else {
        line.strip_prefix(['-', '*'])
    };
    marker?.strip_prefix(' ')
}

/// The cells of a row; `\|` separates none.
fn cells(row: &str) -> Vec<String> {
    const KEPT: &str = "\u{0}";
    let row = row.trim().replace("\\|", KEPT);
    let row = row.strip_prefix('|').unwrap_or(&row);
    let row = row.strip_suffix('|').unwrap_or(row);
    row.split('|')
        .map(|cell| cell.trim().replace(KEPT, "|"))
        .collect()
}

/// What a cell that is code has between its backticks.
pub fn code(cell: &str) -> Option<&str> {
    cell.strip_prefix('`')?.strip_suffix('`')
}

/// Cuts a paragraph that begins on this line into text, code and links.
pub fn parts_of(text: &str, line: usize) -> Vec<Placed> {
    let mut parts: Vec<Placed> = Vec::new();
    let (mut rest, mut line) = (text, line);
    while let Some(first) = rest.chars().next() {
        let ticks = &rest[..rest.len() - rest.trim_start_matches('`').len()];
        let code = rest[ticks.len()..].split_once(ticks);
        let link = rest
            .strip_prefix('[')
            .and_then(|inner| inner.split_once(']'));
        let (part, left) = if let Some((code, left)) = code.filter(|_| !ticks.is_empty()) {
            (Part::Code(code.to_string()), left)
        } else if let Some((label, left)) = link {
            let target = left
                .strip_prefix('(')
                .and_then(|inner| inner.split_once(')'));
            match target {
                Some((target, left)) => (
                    Part::Link(label.to_string(), Some(target.to_string())),
                    left,
                ),
                None => (Part::Link(label.to_string(), None), left),
            }
        } else {
            let len = rest[first.len_utf8()..].find(['`', '[']);
            let (text, left) = rest.split_at(len.map_or(rest.len(), |len| len + first.len_utf8()));
            (Part::Text(text.to_string()), left)
        };
        parts.push(Placed { line, part });
        line += rest[..rest.len() - left.len()].matches('\n').count();
        rest = left;
    }
    parts
}

/// The date, as 2026-11-16, that a text begins with.
pub fn date(text: &str) -> Option<&str> {
    let date = text.get(..10)?;
    let numbers: Vec<&str> = date.split('-').collect();
    let [year, month, day] = numbers[..] else {
        return None;
    };
    let within = |text: &str, len: usize, from: u32, to: u32| {
        let digits = text.len() == len && text.bytes().all(|byte| byte.is_ascii_digit());
        digits && text.parse().is_ok_and(|n: u32| (from..=to).contains(&n))
    };
    let valid = within(year, 4, 0, 9_999) && within(month, 2, 1, 12) && within(day, 2, 1, 31);
    valid.then_some(date)
}

/// Dates downwards, with their lines: one that is after the one above it.
pub fn rising_dates(source: &Source, dates: &[(usize, &str)]) -> Vec<String> {
    let twos = dates.windows(2).filter(|two| two[0].1 < two[1].1);
    twos.map(|two| {
        source.at(
            two[1].0,
            format!("{} is after {} above it", two[1].1, two[0].1),
        )
    })
    .collect()
}
