//! Values as text: blanks, escapes and the forms of integers are chosen anew.

use crate::value::{Form, Value};
use logs::random::Random;

pub struct Writer<'a> {
    random: &'a mut Random,
    text: Vec<u8>,
    /// Blanks stand once in this many places, escapes once in as many characters,
    /// and "0x" strings once in as many integers; 0 is never.
    blanks: u64,
    escapes: u64,
    hexadecimal: u64,
}

/// The value in a style of its own.
pub fn write(random: &mut Random, value: &Value) -> Vec<u8> {
    let rates = [0, 0, 2, 5, 30];
    let (blanks, escapes) = (random.one_of(&rates), random.one_of(&rates));
    let hexadecimal = random.one_of(&[0, 1, 3, 3]);
    let mut writer = Writer {
        random,
        text: Vec::new(),
        blanks,
        escapes,
        hexadecimal,
    };
    writer.blank();
    writer.value(value);
    writer.blank();
    writer.text
}

impl Writer<'_> {
    fn now(&mut self, rate: u64) -> bool {
        rate > 0 && self.random.once_in(rate)
    }

    fn blank(&mut self) {
        while self.now(self.blanks) {
            let blank = self.random.one_of(b" \t\n\r  ");
            self.text.push(blank);
            if self.random.once_in(2) {
                return;
            }
        }
    }

    fn put(&mut self, byte: u8) {
        self.blank();
        self.text.push(byte);
        self.blank();
    }

    fn value(&mut self, value: &Value) {
        match &value.form {
            Form::Raw(text) => self.text.extend(text.as_bytes()),
            Form::Text(characters) => self.string(characters),
            Form::Integer(number) => self.integer(*number),
            Form::Array(values) => {
                self.put(b'[');
                for (index, value) in values.iter().enumerate() {
                    self.comma(index);
                    self.value(value);
                }
                self.put(b']');
            }
            Form::Object(members) => {
                self.put(b'{');
                for (index, (key, value)) in members.iter().enumerate() {
                    self.comma(index);
                    self.string(key);
                    self.put(b':');
                    self.value(value);
                }
                self.put(b'}');
            }
        }
    }

    fn comma(&mut self, index: usize) {
        if index > 0 {
            self.put(b',');
        }
    }

    fn integer(&mut self, number: u64) {
        if !self.now(self.hexadecimal) {
            return self.text.extend(number.to_string().bytes());
        }
        let zeros = "0".repeat(self.random.one_of(&[0, 0, 0, 1, 20]));
        let digits = match self.random.below(2) {
            0 => format!("0x{zeros}{number:x}"),
            _ => format!("0x{zeros}{number:X}"),
        };
        let characters: Vec<u32> = digits.chars().map(u32::from).collect();
        self.string(&characters);
    }

    fn string(&mut self, characters: &[u32]) {
        self.text.push(b'"');
        for character in characters {
            self.character(*character);
        }
        self.text.push(b'"');
    }

    fn character(&mut self, character: u32) {
        let short = short_escape(character);
        let plain =
            char::from_u32(character).filter(|plain| *plain >= ' ' && !"\"\\".contains(*plain));
        match (plain, short) {
            (Some(plain), _) if !self.now(self.escapes) => {
                let mut bytes = [0; 4];
                self.text.extend(plain.encode_utf8(&mut bytes).as_bytes());
            }
            (_, Some(short)) if self.random.once_in(2) => self.text.extend([b'\\', short]),
            _ => self.long_escape(character),
        }
    }

    fn long_escape(&mut self, character: u32) {
        let units = match character.checked_sub(0x10000) {
            None => vec![character],
            Some(over) => vec![0xD800 + over / 0x400, 0xDC00 + over % 0x400],
        };
        for unit in units {
            let escape = match self.random.below(2) {
                0 => format!("\\u{unit:04x}"),
                _ => format!("\\u{unit:04X}"),
            };
            self.text.extend(escape.bytes());
        }
    }
}

fn short_escape(character: u32) -> Option<u8> {
    let pairs = [
        (0x22, b'"'),
        (0x5C, b'\\'),
        (0x2F, b'/'),
        (0x08, b'b'),
        (0x0C, b'f'),
        (0x0A, b'n'),
        (0x0D, b'r'),
        (0x09, b't'),
    ];
    let found = pairs.iter().find(|(plain, _)| *plain == character)?;
    Some(found.1)
}
