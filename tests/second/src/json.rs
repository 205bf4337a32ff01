//! JSON by the grammar of RFC 8259, as a list of values with their places. A
//! text that isn't JSON gives the values up to where it breaks.

mod string;
mod tokens;

use tokens::{blanks, number, word};

/// A key of an object, by its decoded characters.
pub struct Key {
    pub characters: Vec<u32>,
    /// The place of its closing quote.
    pub last: usize,
    /// The index of its value; none where the text breaks before or in it.
    pub value: Option<usize>,
}

/// What a value is. Those within an array are given by their indices.
pub enum Kind {
    /// `true`, `false` or `null`.
    Word,
    Number,
    /// A string, by its decoded characters.
    Text(Vec<u32>),
    Array(Vec<usize>),
    Object(Vec<Key>),
}

/// A value, finished or not. An unfinished one is an array or object.
pub struct Value {
    pub kind: Kind,
    /// The place of its first byte.
    pub start: usize,
    /// The place of its last byte; none where the text breaks within it.
    pub last: Option<usize>,
    /// How many arrays and objects stand around it.
    pub depth: usize,
    /// The index behind those of all values within it.
    pub behind: usize,
}

/// The values of a text, in the order of their first bytes.
pub struct Tree {
    pub values: Vec<Value>,
    /// Where the text isn't JSON: the first byte with which no JSON text can go
    /// on, or the text's length where it ends too soon.
    pub broken: Option<usize>,
}

/// Reads any bytes.
pub fn read(text: &[u8]) -> Tree {
    let mut reader = Reader {
        text,
        at: 0,
        values: Vec::new(),
        open: Vec::new(),
    };
    let broken = reader.whole().err();
    let behind = reader.values.len();
    for index in reader.open {
        reader.values[index].behind = behind;
    }
    Tree {
        values: reader.values,
        broken,
    }
}

/// A place where no JSON text can go on.
type Broken = usize;

struct Reader<'a> {
    text: &'a [u8],
    at: usize,
    values: Vec<Value>,
    /// The indices of the arrays and objects that are open, the innermost last.
    open: Vec<usize>,
}

impl Reader<'_> {
    /// Blanks, a value, blanks.
    fn whole(&mut self) -> Result<(), Broken> {
        self.blanks();
        self.value()?;
        while let Some(index) = self.open.last() {
            self.go_on(*index)?;
        }
        self.blanks();
        match self.next() {
            None => Ok(()),
            Some(_) => Err(self.at),
        }
    }

    /// In an open array or object, behind its bracket or one of its values: its
    /// end, or one more value.
    fn go_on(&mut self, index: usize) -> Result<(), Broken> {
        self.blanks();
        let (closing, empty, object) = match &self.values[index].kind {
            Kind::Object(keys) => (b'}', keys.is_empty(), true),
            Kind::Array(values) => (b']', values.is_empty(), false),
            _ => unreachable!("only arrays and objects are open"),
        };
        if self.next() == Some(closing) {
            self.close(index);
            return Ok(());
        }
        if !empty {
            self.take(b',')?;
            self.blanks();
        }
        if object {
            self.key(index)?;
        }
        self.value()
    }

    fn close(&mut self, index: usize) {
        self.values[index].last = Some(self.at);
        self.values[index].behind = self.values.len();
        self.open.pop();
        self.at += 1;
    }

    /// A key, its colon, and the blanks behind.
    fn key(&mut self, index: usize) -> Result<(), Broken> {
        let (characters, behind) = string::read(self.text, self.at)?;
        if let Kind::Object(keys) = &mut self.values[index].kind {
            keys.push(Key {
                characters,
                last: behind - 1,
                value: None,
            });
        }
        self.at = behind;
        self.blanks();
        self.take(b':')?;
        self.blanks();
        Ok(())
    }

    /// A whole value, or the opening bracket of one.
    fn value(&mut self) -> Result<(), Broken> {
        let (text, at) = (self.text, self.at);
        match self.next() {
            Some(b'{') => self.open(Kind::Object(Vec::new())),
            Some(b'[') => self.open(Kind::Array(Vec::new())),
            Some(b'"') => {
                let (characters, behind) = string::read(text, at)?;
                self.add(Kind::Text(characters), behind);
            }
            Some(b't') => self.add(Kind::Word, word(text, at, b"true")?),
            Some(b'f') => self.add(Kind::Word, word(text, at, b"false")?),
            Some(b'n') => self.add(Kind::Word, word(text, at, b"null")?),
            _ => self.add(Kind::Number, number(text, at)?),
        }
        Ok(())
    }

    fn open(&mut self, kind: Kind) {
        let index = self.values.len();
        self.add(kind, self.at + 1);
        self.values[index].last = None;
        self.open.push(index);
    }

    /// A value from here to `behind`, as the next of what is open.
    fn add(&mut self, kind: Kind, behind: usize) {
        let index = self.values.len();
        if let Some(around) = self.open.last() {
            match &mut self.values[*around].kind {
                Kind::Array(values) => values.push(index),
                Kind::Object(keys) => keys.last_mut().expect("read before").value = Some(index),
                _ => unreachable!("only arrays and objects are open"),
            }
        }
        self.values.push(Value {
            kind,
            start: self.at,
            last: Some(behind - 1),
            depth: self.open.len(),
            behind: index + 1,
        });
        self.at = behind;
    }

    fn next(&self) -> Option<u8> {
        self.text.get(self.at).copied()
    }

    fn blanks(&mut self) {
        self.at = blanks(self.text, self.at);
    }

    fn take(&mut self, byte: u8) -> Result<(), Broken> {
        if self.next() != Some(byte) {
            return Err(self.at);
        }
        self.at += 1;
        Ok(())
    }
}
