//! Items to lines of text and back.

use crate::shape::{Shape, SHAPES};
use crate::{value, Item, Record};
use std::fmt;

/// What is wrong with a text, and on which line.
#[derive(Debug, PartialEq)]
pub struct Fault {
    pub line: usize,
    pub what: String,
}

impl fmt::Display for Fault {
    fn fmt(&self, f: &mut fmt::Formatter<'_>) -> fmt::Result {
        write!(f, "line {}: {}", self.line, self.what)
    }
}

/// One line a record, raw bytes sixteen a line; `short` leaves out the fields that have their default.
pub fn show(items: &[Item], short: bool) -> String {
    let mut out = String::new();
    for item in items {
        match item {
            Item::Record(record) => show_record(record, short, &mut out),
            Item::Raw(bytes) => bytes.chunks(16).for_each(|row| show_raw(row, &mut out)),
        }
    }
    out
}

fn show_record(record: &Record, short: bool, out: &mut String) {
    let shape = &SHAPES[record.kind];
    out.push_str(shape.word);
    for (field, &stored) in shape.fields.iter().zip(&record.fields) {
        if !short || stored != field.default {
            out.push_str(&format!(
                " {}={}",
                field.name,
                value::show(field.sort, stored)
            ));
        }
    }
    out.push('\n');
}

fn show_raw(row: &[u8], out: &mut String) {
    out.push_str("raw");
    row.iter()
        .for_each(|byte| out.push_str(&format!(" {byte:02x}")));
    out.push('\n');
}

/// The items of a text; `#` starts a comment.
pub fn read(text: &str) -> Result<Vec<Item>, Fault> {
    let mut items = Vec::new();
    for (number, line) in text.lines().enumerate() {
        let bare = line.split('#').next().unwrap_or("");
        let mut words = bare.split_whitespace();
        if let Some(word) = words.next() {
            let item = read_line(word, words.collect()).map_err(|what| Fault {
                line: number + 1,
                what,
            })?;
            items.push(item);
        }
    }
    Ok(items)
}

fn read_line(word: &str, rest: Vec<&str>) -> Result<Item, String> {
    if word == "raw" {
        return rest
            .iter()
            .map(|hex| read_byte(hex))
            .collect::<Result<_, _>>()
            .map(Item::Raw);
    }
    let kind = SHAPES.iter().position(|shape| shape.word == word);
    let kind = kind.ok_or_else(|| format!("no record is called `{word}`"))?;
    let fields = read_fields(&SHAPES[kind], &rest)?;
    Ok(Item::Record(Record { kind, fields }))
}

fn read_byte(hex: &str) -> Result<u8, String> {
    let known = hex.len() == 2 && hex.bytes().all(|b| b.is_ascii_hexdigit());
    let byte = if known {
        u8::from_str_radix(hex, 16).ok()
    } else {
        None
    };
    byte.ok_or_else(|| format!("`{hex}` is not a byte in two hex digits"))
}

fn read_fields(shape: &Shape, words: &[&str]) -> Result<Vec<u64>, String> {
    let mut given: Vec<Option<u64>> = vec![None; shape.fields.len()];
    for word in words {
        let (name, text) = word
            .split_once('=')
            .ok_or_else(|| format!("`{word}` wants the form name=value"))?;
        let place = shape.fields.iter().position(|f| f.name == name);
        let place = place.ok_or_else(|| format!("{} has no field `{name}`", shape.word))?;
        if given[place].is_some() {
            return Err(format!("{name} is given twice"));
        }
        let stored = value::read(shape.fields[place].sort, text)
            .map_err(|what| format!("{name}: {what}"))?;
        given[place] = Some(stored);
    }
    Ok(given
        .iter()
        .zip(shape.fields)
        .map(|(stored, field)| stored.unwrap_or(field.default))
        .collect())
}
