//! The text form of records: canonical text out, commissioning text in.

use std::fmt;

use crate::fields::{self, Field, Kind, ANY_HANDLE, KINDS, KIND_CLEAR};
use crate::reader;
use crate::refusal::Refusal;

/// The word of a filter's handle; any-handle 1 and handle 0 together.
const ANY: &str = "any";

/// One record as canonical text, without the newline.
pub fn canonical(kind: &Kind, values: &[u64]) -> String {
    let mut line = kind.name.to_string();
    let mut any_handle = false;
    for (field, &value) in kind.fields.iter().zip(values) {
        if field.name == ANY_HANDLE {
            any_handle = value == 1;
            continue;
        }
        let text = if any_handle { ANY.to_string() } else { value_text(field, value) };
        any_handle = false;
        line.push_str(&format!(" {}={text}", field.name));
    }
    line
}

fn value_text(field: &Field, value: u64) -> String {
    match &field.word {
        Some(word) if word.value == value => word.text.to_string(),
        _ => value.to_string(),
    }
}

/// The record an input begins with, as text, and the octets it takes. Only
/// the reader's refusals (1, 2, 3) can be given: no bridge is asked.
pub fn first(input: &[u8]) -> Result<(String, usize), Refusal> {
    let (kind, body) = reader::split(input)?;
    let values = reader::values(kind, body)?;
    Ok((canonical(kind, &values), 1 + body.len()))
}

/// The same where it is known whether a start was read before it: then the
/// reader's 4 is given too, after 2 and the cut body and before 3.
fn first_in_turn(input: &[u8], started: bool) -> Result<(String, usize), Refusal> {
    let (kind, _) = reader::split(input)?;
    if started == (kind.number <= fields::KIND_START) {
        return Err(Refusal::WrongPhase);
    }
    first(input)
}

/// All that `records` prints for an input. It has no bridge, so a start that
/// is read counts as taken.
pub fn records(input: &[u8]) -> String {
    let mut printed = String::new();
    let mut offset = 0;
    let mut started = false;
    while offset < input.len() {
        match first_in_turn(&input[offset..], started) {
            Ok((line, used)) => {
                printed.push_str(&line);
                started |= input[offset] == fields::KIND_START;
                offset += used;
            }
            Err(refusal) => {
                printed.push_str(&format!("refused {} at {offset}", refusal.number()));
                offset = input.len();
            }
        }
        printed.push('\n');
    }
    printed
}

/// What is wrong with a text, and where; lines and columns count from 1.
#[derive(Clone, Debug, PartialEq, Eq)]
pub struct TextError {
    pub line: usize,
    pub column: usize,
    pub expected: String,
    pub found: String,
}

impl fmt::Display for TextError {
    fn fmt(&self, to: &mut fmt::Formatter) -> fmt::Result {
        let TextError { line, column, expected, found } = self;
        write!(to, "{line}:{column}: expected {expected}, found {found}")
    }
}

/// The records of a whole text, or its first error.
pub fn assemble(text: &str) -> Result<Vec<u8>, TextError> {
    let mut records = Vec::new();
    for (index, line) in text.split('\n').enumerate() {
        let octets = assemble_line(line).map_err(|fault| TextError { line: index + 1, ..fault })?;
        records.extend_from_slice(&octets);
    }
    Ok(records)
}

/// A word of a line and the column it begins at.
#[derive(Clone, Copy)]
struct Word<'a> {
    text: &'a str,
    column: usize,
}

/// The words of a line, and how it ends after them.
struct Words<'a> {
    words: Vec<Word<'a>>,
    next: usize,
    end_column: usize,
    comment: bool,
}

impl<'a> Words<'a> {
    fn of(line: &'a str) -> Words<'a> {
        let (content, comment) = match line.find('#') {
            Some(place) => (&line[..place], true),
            None => (line, false),
        };
        let words = split_words(content);
        let end_column = words.last().map_or(1, |word| word.column + word.text.chars().count());
        Words { words, next: 0, end_column, comment }
    }

    fn next(&mut self) -> Option<Word<'a>> {
        let word = self.words.get(self.next).copied();
        self.next += 1;
        word
    }

    fn end_error(&self, expected: String) -> TextError {
        let found = if self.comment { "a comment" } else { "the end of the line" };
        error(self.end_column, expected, found.to_string())
    }

    fn expect_end(&mut self) -> Result<(), TextError> {
        match self.next() {
            Some(word) => Err(error_at(word, "the end of the line".to_string())),
            None => Ok(()),
        }
    }
}

fn split_words(content: &str) -> Vec<Word<'_>> {
    let mut words = Vec::new();
    let mut column = 1;
    for text in content.split([' ', '\t']) {
        if !text.is_empty() {
            words.push(Word { text, column });
        }
        column += text.chars().count() + 1;
    }
    words
}

fn error(column: usize, expected: String, found: String) -> TextError {
    TextError { line: 0, column, expected, found }
}

fn error_at(word: Word, expected: String) -> TextError {
    let found = if word.text.is_empty() {
        "nothing".to_string()
    } else {
        format!("\"{}\"", word.text.escape_debug())
    };
    error(word.column, expected, found)
}

fn assemble_line(line: &str) -> Result<Vec<u8>, TextError> {
    let mut words = Words::of(line);
    let name = match words.next() {
        Some(name) => name,
        None => return Ok(Vec::new()),
    };
    if name.text == "octets" {
        return plain_octets(&mut words);
    }
    match KINDS.iter().find(|kind| kind.name == name.text) {
        Some(kind) => record(kind, &mut words),
        None => Err(error_at(name, kind_names())),
    }
}

fn kind_names() -> String {
    let names: Vec<&str> = KINDS.iter().map(|kind| kind.name).collect();
    format!("{} or octets", names.join(", "))
}

fn plain_octets(words: &mut Words) -> Result<Vec<u8>, TextError> {
    let expected = || "an octet as two hex digits".to_string();
    let mut octets = Vec::new();
    while let Some(word) = words.next() {
        octets.push(hex_octet(word.text).ok_or_else(|| error_at(word, expected()))?);
    }
    if octets.is_empty() {
        return Err(words.end_error(expected()));
    }
    Ok(octets)
}

fn hex_octet(text: &str) -> Option<u8> {
    // The digits are looked at one by one: from_str_radix would take a sign.
    let digits = text.len() == 2 && text.chars().all(|digit| digit.is_ascii_hexdigit());
    digits.then(|| u8::from_str_radix(text, 16).ok()).flatten()
}

fn record(kind: &Kind, words: &mut Words) -> Result<Vec<u8>, TextError> {
    let mut values: Vec<u64> = Vec::new();
    for field in kind.fields.iter().filter(|field| field.name != ANY_HANDLE) {
        let any_handle = kind.fields[values.len()].name == ANY_HANDLE;
        let word = value_word(field, words)?;
        if any_handle {
            values.extend(handle(field, word)?);
        } else {
            values.push(value(field, high(kind, field, &values), word)?);
        }
    }
    words.expect_end()?;
    Ok(reader::octets(kind, &values))
}

/// The field's highest number: a clear's id depends on the flag before it.
fn high(kind: &Kind, field: &Field, before: &[u64]) -> u64 {
    if kind.number == KIND_CLEAR && field.name == "id" {
        fields::clear_id_max(before[0])
    } else {
        field.high
    }
}

/// What stands after `name=`.
fn value_word<'a>(field: &Field, words: &mut Words<'a>) -> Result<Word<'a>, TextError> {
    let expected = || format!("{}=", field.name);
    let word = words.next().ok_or_else(|| words.end_error(expected()))?;
    match word.text.split_once('=') {
        Some((name, text)) if name == field.name => {
            Ok(Word { text, column: word.column + name.len() + 1 })
        }
        _ => Err(error_at(word, expected())),
    }
}

/// A filter's handle: any-handle and handle.
fn handle(field: &Field, word: Word) -> Result<[u64; 2], TextError> {
    if word.text == ANY {
        return Ok([1, 0]);
    }
    match number(word.text) {
        Some(number) if field.in_numbers(number) => Ok([0, number]),
        _ => Err(error_at(word, format!("{} or {ANY}", numbers(field.low, field.high)))),
    }
}

fn value(field: &Field, high: u64, word: Word) -> Result<u64, TextError> {
    let expected = match &field.word {
        Some(named) if named.text == word.text => return Ok(named.value),
        Some(named) => {
            format!("{} or {} (for {})", numbers(field.low, high), named.text, named.value)
        }
        None => numbers(field.low, high),
    };
    match number(word.text) {
        Some(number) if (field.low..=high).contains(&number) => Ok(number),
        _ => Err(error_at(word, expected)),
    }
}

fn numbers(low: u64, high: u64) -> String {
    format!("a decimal number from {low} to {high}")
}

/// A decimal number with no sign and no leading zero.
fn number(text: &str) -> Option<u64> {
    let digits = !text.is_empty() && text.chars().all(|digit| digit.is_ascii_digit());
    let leading_zero = text.len() > 1 && text.starts_with('0');
    (digits && !leading_zero).then(|| text.parse().ok()).flatten()
}
