//! From a text to its book.

use super::label::label;
use crate::book::{kind, Book, Cell, LabelRecord, Node, Program, Region, Right, Trigger};
use crate::places::{place, Places};
use std::collections::HashMap;
use std::fmt::{Display, Formatter};

/// What is wrong with a text, and on which line, counted from 1.
#[derive(Clone, Debug, PartialEq, Eq)]
pub struct Fault {
    pub line: usize,
    pub message: String,
}

impl Display for Fault {
    fn fmt(&self, out: &mut Formatter<'_>) -> std::fmt::Result {
        write!(out, "line {}: {}", self.line, self.message)
    }
}

/// The book that a text describes.
///
/// One rule is left to the decoder, as no single line breaks it: what the body
/// of a trigger may reach.
pub fn assemble(text: &str) -> Result<Book, Fault> {
    let mut assembler = Assembler::default();
    for (index, line) in text.lines().enumerate() {
        let sentence = line.split('#').next().unwrap_or_default();
        let words: Vec<&str> = sentence.split_whitespace().collect();
        let line = index + 1;
        assembler
            .sentence(&words)
            .map_err(|message| Fault { line, message })?;
    }
    Ok(assembler.book)
}

/// The forms of a sentence, found by their first word.
const SENTENCES: [(&str, &str); 8] = [
    ("cell", "cell TABLE OWNER LINE = AMOUNT"),
    (
        "region",
        "region NAME = table TABLE owners FIRST-LAST lines FIRST-LAST",
    ),
    ("public", "public REGION"),
    ("read", "read USER REGION"),
    ("write", "write USER REGION"),
    ("node", "node NAME = FORM"),
    ("program", "program USER ROOT"),
    ("trigger", "trigger REGION put|clear USER BODY"),
];

/// The forms of a node, found by their first word or else by their second.
const NODES: [(&str, &str); 21] = [
    ("constant", "constant AMOUNT"),
    ("variable", "variable NUMBER"),
    ("+", "A + B"),
    ("-", "A - B"),
    ("equals", "A equals B"),
    ("less", "A less B"),
    ("count", "count table TABLE owners A to B lines C to D"),
    ("sum", "sum table TABLE owners A to B lines C to D"),
    (
        "smallest",
        "smallest table TABLE owners A to B lines C to D",
    ),
    ("largest", "largest table TABLE owners A to B lines C to D"),
    ("skip", "skip"),
    ("set", "set VARIABLE to A"),
    ("then", "A then B"),
    ("if", "if A then B else C"),
    ("while", "while A do B"),
    ("put", "put C at table TABLE owner A line B"),
    ("clear", "clear table TABLE owner A line B"),
    ("out", "out A to USER"),
    ("grant", "grant read|write REGION to USER"),
    ("revoke", "revoke read|write REGION from USER"),
    ("raise", "raise VARIABLE by REGION"),
];

/// The forms of a sentence that only books of version 2 have. Their words may
/// also be names, as they may be in a text for version 1.
const LATER_SENTENCES: [(&str, &str); 2] = [
    (
        "label",
        "label TABLE OWNER LINE = PLACE PLACE .. (or: nothing)",
    ),
    ("version", "version 2"),
];

/// The words inside the forms, which cannot be names either.
const INNER_WORDS: [&str; 11] = [
    "table", "owners", "owner", "lines", "line", "to", "else", "do", "at", "from", "by",
];

/// What a name stands for, with its index in its section.
#[derive(Clone, Copy, PartialEq)]
enum Named {
    Region(usize),
    Expression(usize),
    Command(usize),
}

/// The book so far, and the names declared in it.
#[derive(Default)]
struct Assembler<'text> {
    book: Book,
    names: HashMap<&'text str, Named>,
}

impl<'text> Assembler<'text> {
    fn sentence(&mut self, words: &[&'text str]) -> Result<(), String> {
        match *words {
            [] => Ok(()),
            ["cell", table, owner, line, "=", amount] => self.cell([table, owner, line], amount),
            ["region", name, "=", "table", table, "owners", owners, "lines", lines] => {
                self.region(name, table, owners, lines)
            }
            ["public", region] => self.right(0, "0", region),
            ["read", user, region] => self.right(1, user, region),
            ["write", user, region] => self.right(2, user, region),
            ["node", name, "=", ref form @ ..] if !form.is_empty() => self.node(name, form),
            ["program", user, root] => self.program(user, root),
            ["trigger", region, "put", user, body] => self.trigger(region, 1, user, body),
            ["trigger", region, "clear", user, body] => self.trigger(region, 2, user, body),
            ["label", table, owner, line, "=", ref places @ ..] if !places.is_empty() => {
                self.label([table, owner, line], places)
            }
            ["version", "2"] => {
                self.book.labels.get_or_insert_default();
                Ok(())
            }
            [first, ..] => Err(no_sentence(first)),
        }
    }

    fn cell(&mut self, key: [&str; 3], amount: &str) -> Result<(), String> {
        let [table, owner, line] = cell_key(key)?;
        let cell = Cell {
            table,
            owner,
            line,
            amount: signed(amount)?,
        };
        let place_of = |cell: &Cell| place(cell.table, cell.owner, cell.line);
        if self.book.cells.last().map(place_of) >= Some(place_of(&cell)) {
            return Err("cells stand in rising order of table, owner, line".to_string());
        }
        self.book.cells.push(cell);
        Ok(())
    }

    fn label(&mut self, key: [&str; 3], places: &[&str]) -> Result<(), String> {
        let [table, owner, line] = cell_key(key)?;
        let place = place(table, owner, line);
        let label = label(places)?;
        if label == Places::single(place) {
            return Err("a cell labelled by its own place alone has no label record".to_string());
        }
        let record = LabelRecord {
            place: place as u16,
            label,
        };
        let records = self.book.labels.get_or_insert_default();
        if records.last().map(|last| last.place) >= Some(record.place) {
            return Err("labels stand in rising order of table, owner, line".to_string());
        }
        records.push(record);
        Ok(())
    }

    fn region(
        &mut self,
        name: &'text str,
        table: &str,
        owners: &str,
        lines: &str,
    ) -> Result<(), String> {
        let (owner_first, owner_last) = range("owners", owners)?;
        let (line_first, line_last) = range("lines", lines)?;
        let region = Region {
            table: digit("table", table)?,
            owner_first,
            owner_last,
            line_first,
            line_last,
        };
        room("regions", self.book.regions.len(), 64)?;
        self.declare(name, Named::Region(self.book.regions.len()))?;
        self.book.regions.push(region);
        Ok(())
    }

    fn right(&mut self, kind: u8, user: &str, region: &str) -> Result<(), String> {
        let right = Right {
            kind,
            user: digit("user", user)?,
            region: self.region_index(region)? as u8,
        };
        room("rights", self.book.rights.len(), 64)?;
        self.book.rights.push(right);
        Ok(())
    }

    fn program(&mut self, user: &str, root: &str) -> Result<(), String> {
        let program = Program {
            user: digit("user", user)?,
            root: self.command_index(root)?,
        };
        room("programs", self.book.programs.len(), 8)?;
        self.book.programs.push(program);
        Ok(())
    }

    fn trigger(&mut self, region: &str, event: u8, user: &str, body: &str) -> Result<(), String> {
        let trigger = Trigger {
            region: self.region_index(region)? as u8,
            event,
            user: digit("user", user)?,
            body: self.command_index(body)?,
        };
        room("triggers", self.book.triggers.len(), 8)?;
        self.book.triggers.push(trigger);
        Ok(())
    }

    fn node(&mut self, name: &'text str, form: &[&str]) -> Result<(), String> {
        let index = self.book.nodes.len();
        let (node, named) = match self.expression(form)? {
            Some(node) => (node, Named::Expression(index)),
            None => (self.command(form)?, Named::Command(index)),
        };
        room("nodes", index, 1_024)?;
        self.declare(name, named)?;
        self.book.nodes.push(node);
        Ok(())
    }

    /// The node of an expression's form; `None` for any other form.
    fn expression(&self, form: &[&str]) -> Result<Option<Node>, String> {
        let node = match *form {
            ["constant", amount] => Node {
                kind: kind::CONSTANT,
                k: signed(amount)?,
                ..Node::default()
            },
            ["variable", variable] => Node {
                kind: kind::VARIABLE,
                p: number("variable", variable, 15)?,
                ..Node::default()
            },
            [a, "+", b] => self.pair(kind::ADD, a, b)?,
            [a, "-", b] => self.pair(kind::SUBTRACT, a, b)?,
            [a, "equals", b] => self.pair(kind::EQUAL, a, b)?,
            [a, "less", b] => self.pair(kind::LESS, a, b)?,
            ["count", ref bounds @ ..] => self.query(kind::COUNT, form, bounds)?,
            ["sum", ref bounds @ ..] => self.query(kind::SUM, form, bounds)?,
            ["smallest", ref bounds @ ..] => self.query(kind::SMALLEST, form, bounds)?,
            ["largest", ref bounds @ ..] => self.query(kind::LARGEST, form, bounds)?,
            _ => return Ok(None),
        };
        Ok(Some(node))
    }

    fn pair(&self, kind: u8, a: &str, b: &str) -> Result<Node, String> {
        Ok(Node {
            kind,
            a: self.expression_index(a)?,
            b: self.expression_index(b)?,
            ..Node::default()
        })
    }

    fn query(&self, kind: u8, form: &[&str], bounds: &[&str]) -> Result<Node, String> {
        let ["table", table, "owners", a, "to", b, "lines", c, "to", d] = *bounds else {
            return Err(bad_form(form));
        };
        Ok(Node {
            kind,
            p: digit("table", table)?,
            a: self.expression_index(a)?,
            b: self.expression_index(b)?,
            c: self.expression_index(c)?,
            d: self.expression_index(d)?,
            k: 0,
        })
    }

    /// The node of a command's form. An expression's form is not expected here.
    fn command(&self, form: &[&str]) -> Result<Node, String> {
        let mut node = Node::default();
        match *form {
            ["skip"] => node.kind = kind::SKIP,
            ["set", variable, "to", a] => {
                node.kind = kind::ASSIGN;
                node.p = number("variable", variable, 15)?;
                node.a = self.expression_index(a)?;
            }
            ["raise", variable, "by", region] => {
                node.kind = kind::RAISE;
                node.p = number("variable", variable, 15)?;
                node.a = self.region_index(region)? as u16;
            }
            ["out", a, "to", user] => {
                node.kind = kind::OUT;
                node.a = self.expression_index(a)?;
                node.p = digit("user", user)?;
            }
            ["grant", set, region, "to", user] => {
                node.kind = kind::GRANT;
                self.rights_change(&mut node, set, region, user)?;
            }
            ["revoke", set, region, "from", user] => {
                node.kind = kind::REVOKE;
                self.rights_change(&mut node, set, region, user)?;
            }
            _ => return self.flow_or_write(form),
        }
        Ok(node)
    }

    /// The node of a command that runs others or writes a cell.
    fn flow_or_write(&self, form: &[&str]) -> Result<Node, String> {
        let mut node = Node::default();
        match *form {
            ["if", a, "then", b, "else", c] => {
                node.kind = kind::IF;
                node.a = self.expression_index(a)?;
                node.b = self.command_index(b)?;
                node.c = self.command_index(c)?;
            }
            ["while", a, "do", b] => {
                node.kind = kind::WHILE;
                node.a = self.expression_index(a)?;
                node.b = self.command_index(b)?;
            }
            [a, "then", b] => {
                node.kind = kind::THEN;
                node.a = self.command_index(a)?;
                node.b = self.command_index(b)?;
            }
            ["put", c, "at", "table", table, "owner", a, "line", b] => {
                node.kind = kind::PUT;
                self.key(&mut node, table, a, b)?;
                node.c = self.expression_index(c)?;
            }
            ["clear", "table", table, "owner", a, "line", b] => {
                node.kind = kind::CLEAR;
                self.key(&mut node, table, a, b)?;
            }
            _ => return Err(bad_form(form)),
        }
        Ok(node)
    }

    fn key(&self, node: &mut Node, table: &str, owner: &str, line: &str) -> Result<(), String> {
        node.p = digit("table", table)?;
        node.a = self.expression_index(owner)?;
        node.b = self.expression_index(line)?;
        Ok(())
    }

    fn rights_change(
        &self,
        node: &mut Node,
        set: &str,
        region: &str,
        user: &str,
    ) -> Result<(), String> {
        node.b = match set {
            "read" => 1,
            "write" => 2,
            _ => return Err(format!("`{set}` should be read or write")),
        };
        node.a = self.region_index(region)? as u16;
        node.p = digit("user", user)?;
        Ok(())
    }

    fn declare(&mut self, name: &'text str, named: Named) -> Result<(), String> {
        let mut letters = name.chars();
        if !letters.next().is_some_and(|c| c.is_ascii_alphabetic())
            || !letters.all(|c| c.is_ascii_alphanumeric() || c == '_')
        {
            return Err(format!(
                "`{name}` is no name: names are letters, digits and _, a letter first"
            ));
        }
        if is_keyword(name) {
            return Err(format!(
                "`{name}` is a word of the notation and cannot be a name"
            ));
        }
        if self.names.insert(name, named).is_some() {
            return Err(format!("`{name}` is a name already"));
        }
        Ok(())
    }

    fn find(&self, name: &str) -> Result<Named, String> {
        let unknown = || format!("`{name}` is not declared above");
        self.names.get(name).copied().ok_or_else(unknown)
    }

    fn region_index(&self, name: &str) -> Result<usize, String> {
        match self.find(name)? {
            Named::Region(index) => Ok(index),
            _ => Err(format!("`{name}` should be a region")),
        }
    }

    fn expression_index(&self, name: &str) -> Result<u16, String> {
        match self.find(name)? {
            Named::Expression(index) => Ok(index as u16),
            _ => Err(format!("`{name}` should be an expression")),
        }
    }

    fn command_index(&self, name: &str) -> Result<u16, String> {
        match self.find(name)? {
            Named::Command(index) => Ok(index as u16),
            _ => Err(format!("`{name}` should be a command")),
        }
    }
}

/// The message for words that follow no sentence's form.
fn no_sentence(first: &str) -> String {
    let form = form_of(first, &SENTENCES).or_else(|| form_of(first, &LATER_SENTENCES));
    match form {
        Some(form) => format!("the form is: {form}"),
        None => format!("no sentence starts with `{first}`"),
    }
}

fn form_of(word: &str, forms: &[(&str, &'static str)]) -> Option<&'static str> {
    forms
        .iter()
        .find(|(key, _)| *key == word)
        .map(|(_, form)| *form)
}

/// The message for words that follow no node's form.
fn bad_form(words: &[&str]) -> String {
    let known = words.iter().take(2).find_map(|word| form_of(word, &NODES));
    match known {
        Some(form) => format!("the form is: node NAME = {form}"),
        None => format!("no node has the form `{}`", words.join(" ")),
    }
}

fn is_keyword(word: &str) -> bool {
    form_of(word, &SENTENCES).is_some()
        || form_of(word, &NODES).is_some()
        || INNER_WORDS.contains(&word)
}

fn room(section: &str, count: usize, most: usize) -> Result<(), String> {
    if count >= most {
        return Err(format!("a book has at most {most} {section}"));
    }
    Ok(())
}

/// A whole number in decimal digits, with a minus sign if it is negative.
fn whole(word: &str) -> Result<i64, String> {
    let digits = word.strip_prefix('-').unwrap_or(word);
    let plain = !digits.is_empty() && digits.bytes().all(|byte| byte.is_ascii_digit());
    if !plain {
        return Err(format!("`{word}` should be a number"));
    }
    // Only a number that no field can hold is too long to parse, and the
    // largest one is as far out of range.
    Ok(word.parse().unwrap_or(i64::MAX))
}

fn signed(word: &str) -> Result<i32, String> {
    i32::try_from(whole(word)?).map_err(|_| format!("{word} is not a signed 32-bit number"))
}

fn number(what: &str, word: &str, last: u8) -> Result<u8, String> {
    let value = whole(word)?;
    if !(0..=i64::from(last)).contains(&value) {
        return Err(format!("{what} {word} is outside 0-{last}"));
    }
    Ok(value as u8)
}

/// The table, owner and line of a cell.
fn cell_key([table, owner, line]: [&str; 3]) -> Result<[u8; 3], String> {
    Ok([
        digit("table", table)?,
        digit("owner", owner)?,
        digit("line", line)?,
    ])
}

/// A table, owner, line or user.
fn digit(what: &str, word: &str) -> Result<u8, String> {
    number(what, word, 7)
}

fn range(what: &str, word: &str) -> Result<(u8, u8), String> {
    let Some((first, last)) = word.split_once('-') else {
        return Err(format!("{what} `{word}` should be FIRST-LAST"));
    };
    let (first, last) = (digit(what, first)?, digit(what, last)?);
    if first > last {
        return Err(format!("{what} {word}: first is above last"));
    }
    Ok((first, last))
}
