//! A text before it is written: values, and what each stands for in a DCFG.

/// What is wanted of a value.
#[derive(Debug, Clone, Copy, PartialEq, Eq)]
pub enum Role {
    Top,
    Version,
    /// A table of ids and names, or of processes.
    Table,
    EdgeTable,
    Header,
    Column,
    Row,
    EdgeRow,
    /// The id that is its table's own, and any other.
    OwnId,
    Id,
    Name,
    ProcessId,
    Data,
    Total,
    /// INSTR_COUNT_PER_THREAD, and an element of it.
    Counts,
    Thread,
    /// COUNT_PER_THREAD, and an element of it.
    EdgeCounts,
    EdgeCount,
    /// Nothing: its key or column isn't known.
    Skipped,
}

#[derive(Debug, Clone)]
pub enum Form {
    /// A number that may be written as a "0x" string as well.
    Integer(u64),
    /// Written as it is.
    Raw(String),
    /// A string of these characters, lone surrogates among them.
    Text(Vec<u32>),
    Array(Vec<Value>),
    Object(Vec<(Vec<u32>, Value)>),
}

#[derive(Debug, Clone)]
pub struct Value {
    pub role: Role,
    pub form: Form,
}

/// The way to a value: of each array or object around it the index within.
pub type Way = Vec<usize>;

impl Value {
    pub fn new(role: Role, form: Form) -> Value {
        Value { role, form }
    }

    pub fn integer(role: Role, number: u64) -> Value {
        Value::new(role, Form::Integer(number))
    }

    pub fn text(role: Role, text: &str) -> Value {
        Value::new(role, Form::Text(characters(text)))
    }

    pub fn array(role: Role, values: Vec<Value>) -> Value {
        Value::new(role, Form::Array(values))
    }

    pub fn skipped(form: Form) -> Value {
        Value::new(Role::Skipped, form)
    }

    /// The values of an array.
    pub fn within(&mut self) -> &mut Vec<Value> {
        match &mut self.form {
            Form::Array(values) => values,
            other => panic!("no array: {other:?}"),
        }
    }

    /// The ways to all values that pass, in the order of the text.
    pub fn ways(&self, passes: &dyn Fn(&Value) -> bool) -> Vec<Way> {
        let mut found = Vec::new();
        self.look(&mut Vec::new(), passes, &mut found);
        found
    }

    fn look(&self, way: &mut Way, passes: &dyn Fn(&Value) -> bool, found: &mut Vec<Way>) {
        if passes(self) {
            found.push(way.clone());
        }
        let inner: Vec<&Value> = match &self.form {
            Form::Array(values) => values.iter().collect(),
            Form::Object(members) => members.iter().map(|(_, value)| value).collect(),
            _ => Vec::new(),
        };
        for (index, value) in inner.into_iter().enumerate() {
            way.push(index);
            value.look(way, passes, found);
            way.pop();
        }
    }

    pub fn at(&mut self, way: &[usize]) -> &mut Value {
        let Some((index, rest)) = way.split_first() else {
            return self;
        };
        match &mut self.form {
            Form::Array(values) => values[*index].at(rest),
            Form::Object(members) => members[*index].1.at(rest),
            other => panic!("no way into {other:?}"),
        }
    }
}

pub fn characters(text: &str) -> Vec<u32> {
    text.chars().map(u32::from).collect()
}
