//! The keys of a table, and the kinds of value that they take.
use crate::fault::{Fault, Place, Wrong};
use toml::value::Table;
use toml::Value;

/// A table of a set-up, and where it stands.
#[derive(Clone, Copy)]
pub struct Keys<'t> {
    pub table: &'t Table,
    pub place: Place,
}

const LABEL_BITS: u32 = 52;
const MAX_WORDS: usize = 4;
const MAX_EXPECT_BYTES: usize = 120;
const MAX_HEXADECIMAL_DIGITS: usize = 16;

fn number(value: &Value, low: u32, high: u32) -> Result<u32, Wrong> {
    let number = value.as_integer().ok_or(Wrong::OtherType)?;
    if (i64::from(low)..=i64::from(high)).contains(&number) {
        Ok(number as u32)
    } else {
        Err(Wrong::OtherValue)
    }
}

/// The number of a text `0x` and 1 to 16 hexadecimal digits.
fn hexadecimal(text: &str) -> Option<u64> {
    let digits = text.strip_prefix("0x")?;
    if digits.len() > MAX_HEXADECIMAL_DIGITS || !digits.bytes().all(|byte| byte.is_ascii_hexdigit()) {
        return None;
    }
    u64::from_str_radix(digits, 16).ok()
}

fn word(value: &Value) -> Result<u64, Wrong> {
    match value {
        Value::Integer(number) => u64::try_from(*number).map_err(|_| Wrong::OtherValue),
        Value::String(text) => hexadecimal(text).ok_or(Wrong::OtherValue),
        _ => Err(Wrong::OtherType),
    }
}

fn label(value: &Value) -> Result<u64, Wrong> {
    let number = word(value)?;
    if number < 1 << LABEL_BITS {
        Ok(number)
    } else {
        Err(Wrong::OtherValue)
    }
}

fn array(value: &Value, low: usize, high: usize) -> Result<&[Value], Wrong> {
    let elements = value.as_array().ok_or(Wrong::OtherType)?;
    if (low..=high).contains(&elements.len()) {
        Ok(elements)
    } else {
        Err(Wrong::OtherValue)
    }
}

/// The words of a message, and how many there are.
fn words(value: &Value) -> Result<([u64; MAX_WORDS], u32), Wrong> {
    let elements = array(value, 0, MAX_WORDS)?;
    let mut words = [0; MAX_WORDS];
    for (place, element) in words.iter_mut().zip(elements) {
        *place = word(element)?;
    }
    Ok((words, elements.len() as u32))
}

fn expect(value: &Value) -> Result<&str, Wrong> {
    let text = value.as_str().ok_or(Wrong::OtherType)?;
    let is_shown = |byte: u8| (b' '..=b'~').contains(&byte);
    if (1..=MAX_EXPECT_BYTES).contains(&text.len()) && text.bytes().all(is_shown) {
        Ok(text)
    } else {
        Err(Wrong::OtherValue)
    }
}

impl<'t> Keys<'t> {
    pub fn fault(&self, wrong: Wrong, key: &str) -> Fault {
        Fault::At {
            wrong,
            place: self.place,
            key: key.to_owned(),
        }
    }

    /// What a kind reads at a key, where the key is there.
    pub fn optional<T>(&self, key: &str, kind: impl Fn(&'t Value) -> Result<T, Wrong>) -> Result<Option<T>, Fault> {
        let read = self.table.get(key).map(kind).transpose();
        read.map_err(|wrong| self.fault(wrong, key))
    }

    fn required<T>(&self, key: &str, kind: impl Fn(&'t Value) -> Result<T, Wrong>) -> Result<T, Fault> {
        self.optional(key, kind)?.ok_or_else(|| self.fault(Wrong::Missing, key))
    }

    /// Refuses a table that has a key besides those that are known; keys ascend, so the least is told.
    pub fn known_only(&self, known: &[&str]) -> Result<(), Fault> {
        match self.table.keys().find(|key| !known.contains(&key.as_str())) {
            None => Ok(()),
            Some(key) => Err(self.fault(Wrong::Unknown, key)),
        }
    }

    pub fn number(&self, key: &str, low: u32, high: u32) -> Result<u32, Fault> {
        self.required(key, |value| number(value, low, high))
    }

    pub fn number_or(&self, key: &str, default: u32, low: u32, high: u32) -> Result<u32, Fault> {
        Ok(self.optional(key, |value| number(value, low, high))?.unwrap_or(default))
    }

    pub fn word(&self, key: &str) -> Result<u64, Fault> {
        self.required(key, word)
    }

    pub fn word_or(&self, key: &str, default: u64) -> Result<u64, Fault> {
        Ok(self.optional(key, word)?.unwrap_or(default))
    }

    pub fn label_or(&self, key: &str, default: u64) -> Result<u64, Fault> {
        Ok(self.optional(key, label)?.unwrap_or(default))
    }

    pub fn words_or_none(&self, key: &str) -> Result<([u64; MAX_WORDS], u32), Fault> {
        Ok(self.optional(key, words)?.unwrap_or(([0; MAX_WORDS], 0)))
    }

    pub fn expect_or_none(&self, key: &str) -> Result<Option<&'t str>, Fault> {
        self.optional(key, expect)
    }

    /// A text at a required key.
    pub fn text(&self, key: &str) -> Result<&'t str, Fault> {
        self.required(key, |value| value.as_str().ok_or(Wrong::OtherType))
    }

    /// The tables of an array of at most so many; none where the key is not there.
    pub fn tables_or_none(&self, key: &str, most: usize) -> Result<Vec<&'t Table>, Fault> {
        let elements = self.optional(key, |value| array(value, 0, most))?.unwrap_or(&[]);
        let tables = elements.iter().map(|element| element.as_table().ok_or(Wrong::OtherType));
        tables.collect::<Result<_, _>>().map_err(|wrong| self.fault(wrong, key))
    }
}
