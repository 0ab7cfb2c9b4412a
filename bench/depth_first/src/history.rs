//! The registers of a history and their operations, from the lines that docs/format.md describes.
use crate::members::{read_members, Form, Member, Members};
use std::collections::{HashMap, HashSet};
use std::fmt;

/// The number of a value: values are numbered as they come, `null` first.
pub type Value = u32;
pub const NULL: Value = 0;

/// What an operation asks of the value that it meets.
#[derive(Clone, Copy, Debug, PartialEq)]
pub enum Asks {
    Anything,
    This(Value),
    Other(Value),
}

/// An operation: a read, a write or a cas. A read that nobody answered says nothing, so it is none.
#[derive(Clone, Copy, Debug)]
pub struct Operation {
    /// The line of its call.
    pub call: usize,
    /// The line of its reply; none if it is pending.
    pub reply: Option<usize>,
    pub asks: Asks,
    /// The value that it writes, if it writes one.
    pub writes: Option<Value>,
}

impl Operation {
    /// The value after it took effect, if it can take effect at this one.
    pub fn after(&self, value: Value) -> Option<Value> {
        let suits = match self.asks {
            Asks::Anything => true,
            Asks::This(asked) => value == asked,
            Asks::Other(asked) => value != asked,
        };
        suits.then(|| self.writes.unwrap_or(value))
    }
}

/// A register with its operations in the order of their calls.
#[derive(Debug)]
pub struct Register {
    pub name: String,
    pub operations: Vec<Operation>,
}

/// Why a line is refused.
#[derive(Debug, PartialEq)]
pub enum Fault {
    Members(Form),
    /// The member of this name is absent, or isn't of the form that the event needs.
    Member(&'static str),
    OpenCall,
    NoOpenCall,
    Crashed,
}

impl From<Form> for Fault {
    fn from(form: Form) -> Self {
        Self::Members(form)
    }
}

/// The first line that is refused, counted from 1, and why.
#[derive(Debug, PartialEq)]
pub struct Refusal {
    pub line: usize,
    pub fault: Fault,
}

impl fmt::Display for Refusal {
    fn fmt(&self, to: &mut fmt::Formatter) -> fmt::Result {
        write!(to, "line {}: ", self.line)?;
        match &self.fault {
            Fault::Members(form) => write!(to, "{form}"),
            Fault::Member(name) => write!(to, "{name} is absent or of another form"),
            Fault::OpenCall => to.write_str("the process has an open call"),
            Fault::NoOpenCall => to.write_str("the process has no open call"),
            Fault::Crashed => to.write_str("the process crashed before"),
        }
    }
}

#[derive(Clone, Copy)]
enum Call {
    Read,
    Write(Value),
    Cas { from: Value, to: Value },
}

/// A call that hasn't ended yet.
struct OpenCall {
    line: usize,
    register: usize,
    call: Call,
}

impl OpenCall {
    fn operation(&self, reply: Option<usize>, asks: Asks, writes: Option<Value>) -> Operation {
        Operation {
            call: self.line,
            reply,
            asks,
            writes,
        }
    }

    /// The operation if nobody answers.
    fn pending(&self) -> Option<Operation> {
        match self.call {
            Call::Read => None,
            Call::Write(value) => Some(self.operation(None, Asks::Anything, Some(value))),
            Call::Cas { from, to } => Some(self.operation(None, Asks::This(from), Some(to))),
        }
    }
}

/// What was read so far.
#[derive(Default)]
struct Reading {
    registers: Vec<Register>,
    register_numbers: HashMap<String, usize>,
    value_numbers: HashMap<i64, Value>,
    open: HashMap<i64, OpenCall>,
    crashed: HashSet<i64>,
}

impl Reading {
    fn number(&mut self, value: i64) -> Value {
        let next = self.value_numbers.len() as Value + 1;
        *self.value_numbers.entry(value).or_insert(next)
    }

    fn number_in(&mut self, members: &Members, name: &'static str) -> Result<Value, Fault> {
        match members.get(name) {
            Some(Member::Number(value)) => Ok(self.number(value)),
            _ => Err(Fault::Member(name)),
        }
    }

    fn number_or_null_in(&mut self, members: &Members, name: &'static str) -> Result<Value, Fault> {
        match members.get(name) {
            Some(Member::Null) => Ok(NULL),
            _ => self.number_in(members, name),
        }
    }

    fn register_in(&mut self, members: &Members) -> Result<usize, Fault> {
        let name = match members.get("register") {
            Some(Member::Text(name)) => name,
            _ => return Err(Fault::Member("register")),
        };
        if let Some(&number) = self.register_numbers.get(name) {
            return Ok(number);
        }
        let number = self.registers.len();
        self.register_numbers.insert(name.to_string(), number);
        self.registers.push(Register {
            name: name.to_string(),
            operations: Vec::new(),
        });
        Ok(number)
    }

    fn call(&mut self, process: i64, line: usize, members: &Members) -> Result<(), Fault> {
        if self.open.contains_key(&process) {
            return Err(Fault::OpenCall);
        }
        let register = self.register_in(members)?;
        let call = match members.get("op") {
            Some(Member::Text("read")) => Call::Read,
            Some(Member::Text("write")) => Call::Write(self.number_in(members, "value")?),
            Some(Member::Text("cas")) => Call::Cas {
                from: self.number_or_null_in(members, "from")?,
                to: self.number_in(members, "to")?,
            },
            _ => return Err(Fault::Member("op")),
        };
        let opened = OpenCall {
            line,
            register,
            call,
        };
        self.open.insert(process, opened);
        Ok(())
    }

    fn reply(&mut self, process: i64, line: usize, members: &Members) -> Result<(), Fault> {
        let open = self.open.remove(&process).ok_or(Fault::NoOpenCall)?;
        let (asks, writes) = match open.call {
            Call::Read => {
                let value = self.number_or_null_in(members, "value")?;
                (Asks::This(value), None)
            }
            Call::Write(value) => (Asks::Anything, Some(value)),
            Call::Cas { from, to } => match members.get("ok") {
                Some(Member::Truth(true)) => (Asks::This(from), Some(to)),
                Some(Member::Truth(false)) => (Asks::Other(from), None),
                _ => return Err(Fault::Member("ok")),
            },
        };
        let operation = open.operation(Some(line), asks, writes);
        self.registers[open.register].operations.push(operation);
        Ok(())
    }

    fn event(&mut self, line: usize, members: &Members) -> Result<(), Fault> {
        let process = match members.get("process") {
            Some(Member::Number(process)) => process,
            _ => return Err(Fault::Member("process")),
        };
        if self.crashed.contains(&process) {
            return Err(Fault::Crashed);
        }
        match members.get("event") {
            Some(Member::Text("call")) => self.call(process, line, members),
            Some(Member::Text("reply")) => self.reply(process, line, members),
            Some(Member::Text("fail")) => {
                self.open.remove(&process).ok_or(Fault::NoOpenCall)?;
                Ok(())
            }
            Some(Member::Text("crash")) => {
                self.crashed.insert(process);
                Ok(())
            }
            _ => Err(Fault::Member("event")),
        }
    }

    /// The registers, their pending operations included.
    fn finished(mut self) -> Vec<Register> {
        for open in self.open.values() {
            let operations = &mut self.registers[open.register].operations;
            operations.extend(open.pending());
        }
        for register in &mut self.registers {
            register.operations.sort_unstable_by_key(|it| it.call);
        }
        self.registers
    }
}

/// The registers of a history, in the order of their first calls.
pub fn read_registers(text: &str) -> Result<Vec<Register>, Refusal> {
    let mut reading = Reading::default();
    for (at, line) in text.split('\n').enumerate() {
        if line.trim_matches([' ', '\t', '\r']).is_empty() {
            continue;
        }
        let number = at + 1;
        let read = read_members(line).map_err(Fault::from);
        read.and_then(|members| reading.event(number, &members))
            .map_err(|fault| Refusal {
                line: number,
                fault,
            })?;
    }
    Ok(reading.finished())
}

#[cfg(test)]
mod tests {
    use super::{read_registers, Asks, Fault, Refusal, Value, NULL};
    use crate::members::Form;

    const LINES: &str = r#"
{"process":1,"event":"call","op":"write","register":"x","value":70}
{"process":2,"event":"call","op":"cas","register":"x","from":null,"to":80}
{"process":3,"event":"call","op":"read","register":"y"}
{"process":4,"event":"call","op":"read","register":"x"}
{"process":5,"event":"call","op":"cas","register":"x","from":80,"to":70}
{"process":6,"event":"call","op":"write","register":"x","value":90}
{"process":6,"event":"fail"}
{"process":4,"event":"reply","value":80,"ok":false}
{"process":2,"event":"reply","ok":false}
{"process":1,"event":"reply"}
{"process":5,"event":"crash"}
"#;

    #[test]
    fn reads_each_kind_of_operation() {
        let registers = read_registers(LINES).unwrap();
        let names: Vec<&str> = registers.iter().map(|it| it.name.as_str()).collect();
        assert_eq!(names, ["x", "y"]);
        assert!(registers[1].operations.is_empty(), "a pending read");
        // 70 came first, then 80
        let (first, second): (Value, Value) = (1, 2);
        let expected = [
            (2, Some(11), Asks::Anything, Some(first)),
            (3, Some(10), Asks::Other(NULL), None),
            (5, Some(9), Asks::This(second), None),
            (6, None, Asks::This(second), Some(first)),
        ];
        let found = registers[0].operations.iter();
        let found: Vec<_> = found
            .map(|it| (it.call, it.reply, it.asks, it.writes))
            .collect();
        assert_eq!(found, expected);
    }

    #[test]
    fn refuses_what_the_format_does_not_allow() {
        let read = r#"{"process":1,"event":"call","op":"read","register":"x"}"#;
        let cas = r#"{"process":1,"event":"call","op":"cas","register":"x","from":1,"to":2}"#;
        let crash = r#"{"process":1,"event":"crash"}"#;
        let reply = r#"{"process":1,"event":"reply"}"#;
        let rows = [
            ("", r#"[1]"#, Fault::Members(Form::NoObject)),
            ("", r#"{"event":"crash"}"#, Fault::Member("process")),
            ("", r#"{"process":1,"event":"end"}"#, Fault::Member("event")),
            (
                "",
                r#"{"process":1,"event":"call","op":"add","register":"x"}"#,
                Fault::Member("op"),
            ),
            (
                "",
                r#"{"process":1,"event":"call","op":"read"}"#,
                Fault::Member("register"),
            ),
            (
                "",
                r#"{"process":1,"event":"call","op":"write","register":"x","value":null}"#,
                Fault::Member("value"),
            ),
            (
                "",
                r#"{"process":1,"event":"call","op":"cas","register":"x","to":2}"#,
                Fault::Member("from"),
            ),
            (
                "",
                r#"{"process":1,"event":"call","op":"cas","register":"x","from":2,"to":null}"#,
                Fault::Member("to"),
            ),
            ("", reply, Fault::NoOpenCall),
            ("", r#"{"process":1,"event":"fail"}"#, Fault::NoOpenCall),
            (read, read, Fault::OpenCall),
            (read, reply, Fault::Member("value")),
            (cas, reply, Fault::Member("ok")),
            (crash, read, Fault::Crashed),
        ];
        for (before, line, fault) in rows {
            let text = format!("{before}\n \r\n{line}\n");
            let refused = read_registers(&text).unwrap_err();
            assert_eq!(refused, Refusal { line: 3, fault }, "{before} {line}");
        }
    }
}
