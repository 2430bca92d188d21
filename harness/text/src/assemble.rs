//! From text to units.

use crate::names::{self, Form, CASES, CONSTANTS, TYPES};
use crate::word::{words, Error, Word};
use std::collections::HashMap;
use unit::{Case, Constant, Function, Instruction, Kind, Line, Metadata, Parts};
use unit::{CONSTANT_BOOL, CONSTANT_FLOAT, CONSTANT_INT, TYPE_VALUE};

/// The unit that a text stands for, or the first thing that is wrong with it.
pub fn assemble(text: &str) -> Result<Vec<u8>, Error> {
    let mut statements = Vec::new();
    let mut labels = HashMap::new();
    let mut place = 0;
    for (index, line) in text.lines().enumerate() {
        let mut words = words(index + 1, line).peekable();
        while let Some((word, label)) = words.peek().and_then(|word| word.label()) {
            if labels.insert(label, place).is_some() {
                return Err(word.wrong(format!("{label} is a label already")));
            }
            words.next();
        }
        if let Some(head) = words.next() {
            statements.push(Statement::new(head, words)?);
            place += i64::from(!head.text.starts_with('.'));
        }
    }
    let mut assembler = Assembler { labels, ..Assembler::default() };
    for statement in statements {
        assembler.take(statement)?;
    }
    assembler.finish().map(|parts| parts.encode())
}

impl<'t> Word<'t> {
    /// `NAME:`
    fn label(self) -> Option<(Self, &'t str)> {
        Some((self, self.text.strip_suffix(':')?))
    }

    /// The two parts of `NAME=VALUE`.
    fn attribute(self) -> Option<(Self, Self)> {
        let (name, value) = self.text.split_once('=')?;
        let column = self.column + name.chars().count() + 1;
        Some((Self { text: name, ..self }, Self { text: value, column, ..self }))
    }

    fn one_of(&self, names: &[&str]) -> Result<u8, Error> {
        self.one_of_part(self.text, names)
    }

    fn one_of_part(&self, text: &str, names: &[&str]) -> Result<u8, Error> {
        let found = names.iter().position(|known| *known == text);
        let wrong = || self.wrong(format!("{text} is none of {}", names.join(", ")));
        found.map(|number| number as u8).ok_or_else(wrong)
    }

    fn kind(&self) -> Result<Kind, Error> {
        names::kind(self.text).ok_or_else(|| self.wrong(format!("{} is no kind of metadata", self.text)))
    }
}

/// A line: its head, its operands and its `NAME=VALUE` words.
struct Statement<'t> {
    head: Word<'t>,
    operands: Vec<Word<'t>>,
    attributes: Vec<(Word<'t>, Word<'t>)>,
}

impl<'t> Statement<'t> {
    fn new(head: Word<'t>, words: impl Iterator<Item = Word<'t>>) -> Result<Self, Error> {
        let mut statement = Self { head, operands: Vec::new(), attributes: Vec::new() };
        for word in words {
            match word.attribute() {
                None => statement.operands.push(word),
                Some((name, _)) if statement.has(name.text) => {
                    return Err(name.wrong(format!("{} is given twice", name.text)));
                }
                Some(attribute) => statement.attributes.push(attribute),
            }
        }
        Ok(statement)
    }

    /// The operands, which are as many.
    fn operands<const N: usize>(&self) -> Result<[Word<'t>; N], Error> {
        let given = self.operands.as_slice();
        let wrong = |_| self.head.wrong(format!("{} has {N} operands, not {}", self.head.text, given.len()));
        given.try_into().map_err(wrong)
    }

    fn has(&self, name: &str) -> bool {
        self.attributes.iter().any(|(given, _)| given.text == name)
    }

    /// Takes an attribute's value.
    fn take(&mut self, name: &str) -> Option<Word<'t>> {
        let at = self.attributes.iter().position(|(given, _)| given.text == name)?;
        Some(self.attributes.remove(at).1)
    }

    /// Takes an attribute's number, 0 where there is none.
    fn number<T: TryFrom<i128> + Default>(&mut self, name: &str) -> Result<T, Error> {
        self.take(name).map_or(Ok(T::default()), |value| value.number())
    }

    /// Takes `ok=`, which is 0 or 1.
    fn ok(&mut self) -> Result<u8, Error> {
        self.take("ok").map_or(Ok(0), |value| value.one_of(&["0", "1"]))
    }

    /// Each attribute has to have been taken.
    fn done(self) -> Result<(), Error> {
        match self.attributes.first() {
            Some((name, _)) => Err(name.wrong(format!("{} has no {}=", self.head.text, name.text))),
            None => Ok(()),
        }
    }
}

#[derive(Default)]
struct Assembler<'t> {
    labels: HashMap<&'t str, i64>,
    parts: Parts,
    types: Option<Vec<u8>>,
    /// Metadata past the last instruction's.
    extra: Vec<Metadata>,
    /// The number of metadata entries, where it is smaller than that of the instructions.
    kept: Option<usize>,
    /// Where a select was given cases, and the number of cases that it needs.
    selects: Vec<(Word<'t>, u64)>,
}

impl<'t> Assembler<'t> {
    fn take(&mut self, mut statement: Statement<'t>) -> Result<(), Error> {
        let head = statement.head;
        match head.text {
            ".locals" => {
                let [slots] = statement.operands()?;
                self.parts.local_slots = slots.number::<u16>()?.into();
            }
            ".types" => self.types = Some(types(&statement.operands)?),
            ".defer" => {
                let [] = statement.operands()?;
                self.parts.defer = 1;
            }
            ".const" => self.parts.constants.push(constant(&mut statement)?),
            ".function" => {
                let [parameters, returns] = statement.operands()?;
                let function = Function { param_slots: parameters.number()?, ret_slots: returns.number()? };
                self.parts.functions.push(function);
            }
            ".extern" => {
                let [returns] = statement.operands()?;
                self.parts.externs.push(returns.number()?);
            }
            ".case" => {
                let [kind, queue, slot, elem_slots] = statement.operands()?;
                self.parts.cases.push(Case {
                    kind: kind.one_of(&CASES)?,
                    has_ok: statement.ok()?,
                    queue: queue.number()?,
                    slot: slot.number()?,
                    elem_slots: elem_slots.number()?,
                });
            }
            ".metadata" => {
                let [count] = statement.operands()?;
                self.kept = Some(count.number::<u32>()? as usize);
            }
            ".extra" => {
                let [kind] = statement.operands()?;
                let entry = self.metadata(kind.kind()?, &mut statement)?;
                self.extra.push(entry);
            }
            ".line" => {
                let [place, line] = statement.operands()?;
                let entry = Line { place: self.place(place)?, line: line.number()? };
                self.parts.lines.push(entry);
            }
            text if text.starts_with('.') => return Err(head.wrong(format!("{text} is no directive"))),
            _ => {
                if let Some(line) = statement.take("line") {
                    let place = self.parts.code.len() as u32;
                    self.parts.lines.push(Line { place, line: line.number()? });
                }
                let (instruction, metadata) = self.instruction(&mut statement)?;
                self.parts.code.push(instruction);
                self.parts.metadata.push(metadata);
            }
        }
        statement.done()
    }

    fn instruction(&mut self, statement: &mut Statement<'t>) -> Result<(Instruction, Metadata), Error> {
        let head = statement.head;
        let is_loop = head.text == "Loop";
        let mut instruction = if is_loop {
            let [] = statement.operands()?;
            let exit = statement.take("exit").ok_or_else(|| head.wrong("a loop has an exit="))?;
            let mut hint = names::loop_hint();
            hint.set_imm32(self.place(exit)?);
            hint
        } else {
            self.operands(statement)?
        };
        if let Some(flags) = statement.take("flags") {
            instruction.flags = flags.number()?;
        }
        for (name, field) in [("a", &mut instruction.a), ("b", &mut instruction.b), ("c", &mut instruction.c)]
        {
            if let Some(value) = statement.take(name) {
                *field = value.number()?;
            }
        }
        let kind = match statement.take("meta") {
            Some(kind) => kind.kind()?,
            None if is_loop && statement.has("end") => Kind::LoopEnd,
            None => Kind::None,
        };
        Ok((instruction, self.metadata(kind, statement)?))
    }

    /// An instruction by its name and operands.
    fn operands(&self, statement: &Statement) -> Result<Instruction, Error> {
        let head = statement.head;
        let op = names::op(head.text).ok_or_else(|| head.wrong(format!("{} is no opcode", head.text)))?;
        let mut instruction = Instruction { op, ..Instruction::default() };
        match names::form(op) {
            Form::Fields => {
                let mut fields = [0; 3];
                if let Some(fourth) = statement.operands.get(fields.len()) {
                    return Err(fourth.wrong(format!("{} has up to 3 operands", head.text)));
                }
                for (field, operand) in fields.iter_mut().zip(&statement.operands) {
                    *field = operand.number()?;
                }
                [instruction.a, instruction.b, instruction.c] = fields;
            }
            Form::Value => {
                let [a, value] = statement.operands()?;
                instruction.a = a.number()?;
                instruction.set_imm32(value.number::<i32>()? as u32);
            }
            Form::Jump { condition } => {
                let target = if condition {
                    let [a, target] = statement.operands()?;
                    instruction.a = a.number()?;
                    target
                } else {
                    let [target] = statement.operands()?;
                    target
                };
                let distance = i32::try_from(self.distance(target)?);
                instruction.set_imm32(distance.map_err(|_| too_far(target))? as u32);
            }
            Form::ForLoop => {
                let [a, b, target] = statement.operands()?;
                (instruction.a, instruction.b) = (a.number()?, b.number()?);
                // From the next place.
                let distance = i16::try_from(self.distance(target)? - 1);
                instruction.c = distance.map_err(|_| too_far(target))? as u16;
            }
        }
        Ok(instruction)
    }

    fn metadata(&mut self, kind: Kind, statement: &mut Statement<'t>) -> Result<Metadata, Error> {
        let entry = Metadata {
            kind: kind as u8,
            has_ok: statement.ok()?,
            array_len: statement.number("array")?,
            first: statement.number("first")?,
            second: statement.number("second")?,
            end_pc: statement.take("end").map_or(Ok(0), |end| self.place(end))?,
        };
        if kind == Kind::SelectExecLayout {
            self.selects.push((statement.head, u64::from(entry.first) + u64::from(entry.second)));
        }
        Ok(entry)
    }

    /// A label's place, or a number.
    fn place(&self, word: Word) -> Result<u32, Error> {
        match self.labels.get(word.text) {
            Some(&place) => Ok(place as u32),
            None if word.text.starts_with(|c: char| c.is_ascii_digit()) => word.number(),
            None => Err(word.wrong(format!("{} is neither a label nor a place", word.text))),
        }
    }

    /// How far it is from the next instruction's place to a label, or a distance with its sign.
    fn distance(&self, target: Word) -> Result<i64, Error> {
        if let Some(&place) = self.labels.get(target.text) {
            return Ok(place - self.parts.code.len() as i64);
        }
        match target.text.strip_prefix('+').or(target.text.starts_with('-').then_some(target.text)) {
            Some(distance) => target.number_of(distance),
            None => {
                Err(target.wrong(format!("{} is neither a label nor a distance with its sign", target.text)))
            }
        }
    }

    /// "First case plus number is at most the count of cases."
    fn finish(mut self) -> Result<Parts, Error> {
        let cases = self.parts.cases.len();
        if let Some((select, needed)) = self.selects.iter().find(|(_, needed)| *needed > cases as u64) {
            return Err(select.wrong(format!("this select needs {needed} cases, there are {cases}")));
        }
        let all_value = vec![TYPE_VALUE; self.parts.local_slots as usize];
        self.parts.types = self.types.unwrap_or(all_value);
        if let Some(count) = self.kept {
            self.parts.metadata.truncate(count);
        }
        self.parts.metadata.extend(self.extra);
        Ok(self.parts)
    }
}

fn too_far(target: Word) -> Error {
    target.wrong(format!("{} is too far", target.text))
}

fn types(words: &[Word]) -> Result<Vec<u8>, Error> {
    let mut types = Vec::new();
    for word in words {
        let (name, count) = match word.text.split_once('*') {
            Some((name, count)) => (name, word.number_of::<u16>(count)?),
            None => (word.text, 1),
        };
        types.extend(vec![word.one_of_part(name, &TYPES)?; count.into()]);
    }
    Ok(types)
}

fn constant(statement: &mut Statement) -> Result<Constant, Error> {
    let head = statement.head;
    let kind = statement.operands.first().ok_or_else(|| head.wrong("a constant has a kind"))?;
    let kind = kind.one_of(&CONSTANTS)?;
    let value = match kind {
        CONSTANT_BOOL => {
            let [_, value] = statement.operands()?;
            value.one_of(&["false", "true"])?.into()
        }
        CONSTANT_INT => {
            let [_, value] = statement.operands()?;
            value.number::<i64>().map(|value| value as u64).or_else(|_| value.number())?
        }
        CONSTANT_FLOAT => {
            let [_, value] = statement.operands()?;
            match value.text.starts_with("0x") {
                true => value.number()?,
                false => {
                    let float = value.text.parse::<f64>();
                    float.map_err(|_| value.wrong(format!("{} is no float", value.text)))?.to_bits()
                }
            }
        }
        _ => {
            let [_] = statement.operands()?;
            statement.number("value")?
        }
    };
    let mut unread = [0; 7];
    if let Some(word) = statement.take("unread") {
        let bytes = word.number::<u64>()?.to_le_bytes();
        unread.copy_from_slice(&bytes[..7]);
        if bytes[7] != 0 {
            return Err(word.wrong("unread has seven bytes"));
        }
    }
    Ok(Constant { kind, unread, value })
}
