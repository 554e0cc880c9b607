//! Turns an answer's number, names and detail words into the sentence that the Rust prints.

use crate::second::{Answer, NONE};

const PRIMITIVES: [&str; 14] =
    ["bool", "u8", "u16", "u32", "u64", "i8", "i16", "i32", "i64", "f32", "f64", "fixed32", "fixed64", "void"];
const SEMANTICS: [&str; 6] = ["string", "bytes", "rgb", "uuid", "timestamp", "hash"];
const OPERATORS: [&str; 12] = ["+", "-", "*", "/", "==", "!=", "<", "<=", ">", ">=", "-", "!"];
const CONTEXTS: [&str; 8] = [
    "integer literal",
    "unsigned integer literal",
    "float literal",
    "local binding",
    "return",
    "receiver field assignment",
    "binary expression",
    "unary expression",
];
const RETURNS: [&str; 3] = [
    "void function cannot return a value",
    "value-returning function requires a return value",
    "value-returning body must end with return",
];

/// The sentence of a refusal from 4 to 7 or 9 to 23, and how many bytes of the detail it was told in; no sentence for
/// the other numbers. None where the names or the detail words make no sense.
pub fn sentence(image: &[u8], answer: &Answer, detail: &[u8]) -> Option<(String, usize)> {
    let mut words = Words { image, detail, at: 0 };
    let sentence = words.sentence(answer)?;
    Some((sentence, words.at))
}

/// A name row's text.
pub fn name(image: &[u8], row: u32) -> Option<String> {
    let trailer = image.len().checked_sub(24)?;
    let at = word(image, trailer)? as usize + 16 * row as usize;
    let (start, length) = (word(image, at)? as usize, word(image, at + 4)? as usize);
    String::from_utf8(image.get(start..start + length)?.to_vec()).ok()
}

fn word(bytes: &[u8], at: usize) -> Option<u32> {
    Some(u32::from_le_bytes(bytes.get(at..at + 4)?.try_into().ok()?))
}

struct Words<'a> {
    image: &'a [u8],
    detail: &'a [u8],
    at: usize,
}

impl Words<'_> {
    fn word(&mut self) -> Option<u32> {
        self.at += 4;
        word(self.detail, self.at - 4)
    }

    fn of<'a>(&mut self, table: &[&'a str]) -> Option<&'a str> {
        table.get(self.word()? as usize).copied()
    }

    fn name(&self, row: u32) -> Option<String> {
        name(self.image, row)
    }

    fn sentence(&mut self, answer: &Answer) -> Option<String> {
        let Answer { number, function, second, .. } = *answer;
        // Names are there exactly where 01's table has them.
        let kind = word(self.detail, 0);
        let names = (function != NONE, second != NONE);
        let wanted = match number {
            4 => (false, true),
            5 => (false, false),
            6 => (true, kind == Some(3)),
            13 | 14 | 16..=18 => (true, true),
            7..=23 => (true, false),
            _ => (false, false),
        };
        if names != wanted {
            return None;
        }
        let text = |row: u32| if row == NONE { Some(String::new()) } else { self.name(row) };
        let (f, s) = (text(function)?, text(second)?);
        Some(match number {
            4 => format!("impl references unknown trait '{s}'"),
            5 => "impl target is not a message".into(),
            6 => format!("impl function '{f}' signature mismatch: {}", self.mismatch(&s)?),
            7 => format!("function '{f}' contains unresolved type information"),
            9 => format!("impl function '{f}' has a duplicate implementation"),
            10 => format!("impl function '{f}' is not declared by its trait"),
            11 => format!("impl is missing trait function '{f}'"),
            12 => format!("external function '{f}' cannot be generated"),
            13 => format!("function '{f}' uses unsupported free call '{s}'"),
            14 => format!("function '{f}' uses unsupported method call '{s}'"),
            15 => format!("function '{f}' contains an unsupported expression statement"),
            16 => format!("function '{f}' references unknown local '{s}'"),
            17 => format!("function '{f}' references unknown receiver field '{s}'"),
            18 => format!("function '{f}' redeclares local '{s}'"),
            19 => format!("function '{f}' has invalid assignment target"),
            20 => {
                let (context, expected, actual) = (self.of(&CONTEXTS)?, self.type_name()?, self.type_name()?);
                format!("function '{f}' type mismatch in {context}: expected {expected}, found {actual}")
            }
            21 => {
                let (operator, actual) = (self.of(&OPERATORS)?, self.type_name()?);
                format!("function '{f}' uses operator '{operator}' with unsupported type {actual}")
            }
            22 => format!("function '{f}' has an invalid return: {}", self.of(&RETURNS)?),
            23 => format!("function '{f}' contains statements after return"),
            _ => String::new(),
        })
    }

    /// Detail of 6.
    fn mismatch(&mut self, parameter: &str) -> Option<String> {
        Some(match self.word()? {
            0 => format!("trait expects {} type arguments but impl supplies {}", self.word()?, self.word()?),
            1 => format!("expected {} parameters, found {}", self.word()?, self.word()?),
            2 => {
                let (expected, found) = (self.word()?, self.word()?);
                format!("expected parameter '{}', found '{}'", self.name(expected)?, self.name(found)?)
            }
            3 => format!("parameter '{parameter}' expects {}, found {}", self.type_name()?, self.type_name()?),
            4 => format!("expected return {}, found {}", self.return_name()?, self.return_name()?),
            _ => return None,
        })
    }

    fn return_name(&mut self) -> Option<String> {
        match self.word()? {
            0 => Some("void".into()),
            1 => self.type_name(),
            _ => None,
        }
    }

    fn type_name(&mut self) -> Option<String> {
        let code = self.word()?;
        let container = match code {
            64 => "optional",
            65 => "array",
            67 => "set",
            68 => "map",
            69 => "result",
            70 => "vec2",
            71 => "vec3",
            72 => "vec4",
            73 => "quat",
            74 => "mat3",
            75 => "mat4",
            _ => "",
        };
        Some(match code {
            0..=13 => PRIMITIVES[code as usize].into(),
            16 => format!("{}{}", if self.word()? == 1 { "i" } else { "u" }, self.word()?),
            32..=37 => SEMANTICS[code as usize - 32].into(),
            48 => format!("type#{}", self.word()?),
            66 => {
                let (low, high) = (u64::from(self.word()?), u64::from(self.word()?));
                format!("array<{}, {}>", self.type_name()?, low | high << 32)
            }
            68 | 69 => format!("{container}<{}, {}>", self.type_name()?, self.type_name()?),
            64..=75 => format!("{container}<{}>", self.type_name()?),
            80 => {
                let rows: Option<Vec<u32>> = (0..self.word()?).map(|_| self.word()).collect();
                let names: Option<Vec<String>> = rows?.into_iter().map(|row| self.name(row)).collect();
                format!("bits{{{}}}", names?.join(","))
            }
            _ => return None,
        })
    }
}
