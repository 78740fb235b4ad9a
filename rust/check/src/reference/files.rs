//! Signed files: tasks, origins and plans, read and written.

use super::outcome::{
    NOT_RISING, OUTSIDE_LIMIT, OUT_OF_RANGE, RECORD_CUT, WRONG_KIND, WRONG_LENGTH, WRONG_SIGN_OFF,
};
use shortest::Outcome;

pub const MOST_BYTES: usize = 65_536;
pub const MOST_VARIABLES: usize = 64;
pub const MOST_VALUES: usize = 32;
pub const MOST_ACTIONS: usize = 512;
pub const MOST_PAIRS: usize = 64;
pub const MOST_COST: u32 = 1_000_000;
pub const MOST_STEPS: usize = 4_096;

const HEAD: usize = 4;
const PAIR: usize = 4;

const HEADER: u16 = 1;
const VARIABLE: u16 = 2;
const GOAL: u16 = 3;
const ACTION: u16 = 4;
const SIGN_OFF: u16 = 5;
const VARIABLE_ORIGIN: u16 = 6;
const ACTION_ORIGIN: u16 = 7;
const PLAN: u16 = 8;

/// A variable with one of its values.
#[derive(Clone, Copy, Debug, PartialEq, Eq)]
pub struct Fact {
    pub variable: u16,
    pub value: u16,
}

#[derive(Clone, Copy, Debug, PartialEq, Eq)]
pub struct Variable {
    pub size: u16,
    pub start: u16,
}

#[derive(Clone, Debug, Default, PartialEq, Eq)]
pub struct Action {
    pub cost: u32,
    pub conditions: Vec<Fact>,
    pub effects: Vec<Fact>,
}

#[derive(Clone, Debug, PartialEq, Eq)]
pub struct Task {
    pub variables: Vec<Variable>,
    pub goal: Vec<Fact>,
    pub actions: Vec<Action>,
    pub signer: u32,
}

#[derive(Clone, Debug, PartialEq, Eq)]
pub struct VariableOrigin {
    pub variable: u16,
    /// The new value of each old value.
    pub new_values: Vec<u16>,
}

#[derive(Clone, Debug, PartialEq, Eq)]
pub struct Origin {
    pub variables: Vec<VariableOrigin>,
    pub actions: Vec<u16>,
    pub signer: u32,
}

#[derive(Clone, Debug, PartialEq, Eq)]
pub struct Plan {
    pub steps: Vec<u16>,
    pub signer: u32,
}

pub fn check_task(file: &[u8]) -> Outcome {
    read_task(file).err().unwrap_or(Outcome::DONE)
}

pub fn check_origin(file: &[u8]) -> Outcome {
    read_origin(file).err().unwrap_or(Outcome::DONE)
}

pub fn read_task(file: &[u8]) -> Result<Task, Outcome> {
    let mut reader = Reader::new(file)?;

    let header = reader.next(HEADER)?;
    header.length_is(4)?;
    let variable_count = header.within(0, 0, MOST_VARIABLES)?;
    let action_count = header.within(2, 0, MOST_ACTIONS)?;

    let mut variables = Vec::new();
    for _ in 0..variable_count {
        let record = reader.next(VARIABLE)?;
        record.length_is(4)?;
        let size = record.within(0, 1, MOST_VALUES)?;
        let start = record.below(2, size as usize)?;
        variables.push(Variable { size, start });
    }

    let record = reader.next(GOAL)?;
    let count = record.entries(0, PAIR, 0, MOST_PAIRS)?;
    let goal = record.pairs(0, count, &variables)?;

    let mut actions = Vec::new();
    for _ in 0..action_count {
        actions.push(read_action(&reader.next(ACTION)?, &variables)?);
    }

    let signer = reader.sign_off()?;
    Ok(Task {
        variables,
        goal,
        actions,
        signer,
    })
}

fn read_action(record: &Record, variables: &[Variable]) -> Result<Action, Outcome> {
    if record.body.len() < 8 {
        return Err(record.wrong_length());
    }
    let cost = record.long(0);
    if cost > MOST_COST {
        return Err(record.refused(OUTSIDE_LIMIT, 0));
    }
    let condition_count = record.within(4, 0, MOST_PAIRS)? as usize;
    let effect_count = record.within(6, 0, MOST_PAIRS)? as usize;
    let effects_at = 8 + PAIR * condition_count;
    record.length_is(effects_at + PAIR * effect_count)?;
    Ok(Action {
        cost,
        conditions: record.pairs(8, condition_count, variables)?,
        effects: record.pairs(effects_at, effect_count, variables)?,
    })
}

pub fn read_origin(file: &[u8]) -> Result<Origin, Outcome> {
    let mut reader = Reader::new(file)?;

    let mut variables: Vec<VariableOrigin> = Vec::new();
    while reader.kind()? == VARIABLE_ORIGIN {
        let record = reader.next(VARIABLE_ORIGIN)?;
        let count = record.entries(2, 2, 1, MOST_VALUES)?;
        let before = variables.last().map(|origin| origin.variable);
        let variable = record.rising(0, before, MOST_VARIABLES)?;
        let new_values = (0..count)
            .map(|value| record.below(2 + 2 * value, MOST_VALUES))
            .collect::<Result<_, _>>()?;
        variables.push(VariableOrigin {
            variable,
            new_values,
        });
    }

    let record = reader.next(ACTION_ORIGIN)?;
    let count = record.entries(0, 2, 0, MOST_ACTIONS)?;
    let mut actions: Vec<u16> = Vec::new();
    for place in 0..count {
        actions.push(record.rising(2 * place, actions.last().copied(), MOST_ACTIONS)?);
    }

    let signer = reader.sign_off()?;
    Ok(Origin {
        variables,
        actions,
        signer,
    })
}

/// A plan file is read against its task: action numbers are below
/// `action_count`.
pub fn read_plan(file: &[u8], action_count: usize) -> Result<Plan, Outcome> {
    let mut reader = Reader::new(file)?;
    let record = reader.next(PLAN)?;
    let count = record.entries(0, 2, 0, MOST_STEPS)?;
    let steps = (0..count)
        .map(|step| record.below(2 * step, action_count))
        .collect::<Result<_, _>>()?;
    let signer = reader.sign_off()?;
    Ok(Plan { steps, signer })
}

/// The file being read and the offset reached.
struct Reader<'a> {
    file: &'a [u8],
    offset: usize,
}

impl<'a> Reader<'a> {
    fn new(file: &'a [u8]) -> Result<Self, Outcome> {
        if file.len() > MOST_BYTES {
            return Err(Outcome::refused(OUTSIDE_LIMIT, 0));
        }
        Ok(Reader { file, offset: 0 })
    }

    /// The record at the offset reached, with its kind.
    fn peek(&self) -> Result<(u16, Record<'a>), Outcome> {
        let cut = Outcome::refused(RECORD_CUT, self.offset);
        let left = &self.file[self.offset..];
        if left.len() < HEAD {
            return Err(cut);
        }
        let length = short(left, 0) as usize;
        let body = left.get(HEAD..HEAD + length).ok_or(cut)?;
        let record = Record {
            place: self.offset,
            body,
        };
        Ok((short(left, 2), record))
    }

    fn kind(&self) -> Result<u16, Outcome> {
        Ok(self.peek()?.0)
    }

    /// The next record, which is to be of the kind due.
    fn next(&mut self, due: u16) -> Result<Record<'a>, Outcome> {
        let (kind, record) = self.peek()?;
        if kind != due {
            return Err(Outcome::refused(WRONG_KIND, self.offset));
        }
        self.offset += HEAD + record.body.len();
        Ok(record)
    }

    /// The sign-off, behind which the file ends.
    fn sign_off(&mut self) -> Result<u32, Outcome> {
        let record = self.next(SIGN_OFF)?;
        record.length_is(8)?;
        let signer = record.long(0);
        if signer == 0 {
            return Err(record.refused(WRONG_SIGN_OFF, 0));
        }
        if record.long(4) as usize != record.place {
            return Err(record.refused(WRONG_SIGN_OFF, 4));
        }
        if self.offset < self.file.len() {
            return Err(Outcome::refused(WRONG_KIND, self.offset));
        }
        Ok(signer)
    }
}

/// A record's body and the offset of its head in the file.
struct Record<'a> {
    place: usize,
    body: &'a [u8],
}

impl Record<'_> {
    fn short(&self, at: usize) -> u16 {
        short(self.body, at)
    }

    fn long(&self, at: usize) -> u32 {
        u32::from(self.short(at)) | u32::from(self.short(at + 2)) << 16
    }

    /// A refusal at the field that stands at `at` in the body.
    fn refused(&self, number: u32, at: usize) -> Outcome {
        Outcome::refused(number, self.place + HEAD + at)
    }

    fn wrong_length(&self) -> Outcome {
        Outcome::refused(WRONG_LENGTH, self.place)
    }

    fn length_is(&self, length: usize) -> Result<(), Outcome> {
        if self.body.len() != length {
            return Err(self.wrong_length());
        }
        Ok(())
    }

    /// The count of entries of `entry` bytes each behind the first `fixed`
    /// bytes: 3 where an entry is broken or one is missing, 4 at the record
    /// where there are too many.
    fn entries(
        &self,
        fixed: usize,
        entry: usize,
        least: usize,
        most: usize,
    ) -> Result<usize, Outcome> {
        let length = self.body.len();
        if length < fixed + least * entry || !(length - fixed).is_multiple_of(entry) {
            return Err(self.wrong_length());
        }
        let count = (length - fixed) / entry;
        if count > most {
            return Err(Outcome::refused(OUTSIDE_LIMIT, self.place));
        }
        Ok(count)
    }

    fn within(&self, at: usize, least: usize, most: usize) -> Result<u16, Outcome> {
        let number = self.short(at);
        if !(least..=most).contains(&(number as usize)) {
            return Err(self.refused(OUTSIDE_LIMIT, at));
        }
        Ok(number)
    }

    fn below(&self, at: usize, bound: usize) -> Result<u16, Outcome> {
        let number = self.short(at);
        if number as usize >= bound {
            return Err(self.refused(OUT_OF_RANGE, at));
        }
        Ok(number)
    }

    fn rising(&self, at: usize, before: Option<u16>, bound: usize) -> Result<u16, Outcome> {
        if before.is_some_and(|before| self.short(at) <= before) {
            return Err(self.refused(NOT_RISING, at));
        }
        self.below(at, bound)
    }

    fn pairs(&self, at: usize, count: usize, variables: &[Variable]) -> Result<Vec<Fact>, Outcome> {
        let mut pairs: Vec<Fact> = Vec::new();
        for pair in 0..count {
            let at = at + PAIR * pair;
            let before = pairs.last().map(|fact| fact.variable);
            let variable = self.rising(at, before, variables.len())?;
            let value = self.below(at + 2, variables[variable as usize].size as usize)?;
            pairs.push(Fact { variable, value });
        }
        Ok(pairs)
    }
}

fn short(bytes: &[u8], at: usize) -> u16 {
    u16::from_le_bytes([bytes[at], bytes[at + 1]])
}

/// Writes the task as it stands, accepted or not.
pub fn write_task(task: &Task) -> Vec<u8> {
    let mut file = Vec::new();
    let counts = [task.variables.len() as u16, task.actions.len() as u16];
    write_record(&mut file, HEADER, &shorts(counts));
    for variable in &task.variables {
        let body = shorts([variable.size, variable.start]);
        write_record(&mut file, VARIABLE, &body);
    }
    write_record(&mut file, GOAL, &pairs(&task.goal));
    for action in &task.actions {
        let mut body = action.cost.to_le_bytes().to_vec();
        let counts = [action.conditions.len() as u16, action.effects.len() as u16];
        body.extend(shorts(counts));
        body.extend(pairs(&action.conditions));
        body.extend(pairs(&action.effects));
        write_record(&mut file, ACTION, &body);
    }
    write_sign_off(file, task.signer)
}

pub fn write_origin(origin: &Origin) -> Vec<u8> {
    let mut file = Vec::new();
    for variable in &origin.variables {
        let mut body = shorts([variable.variable]);
        body.extend(shorts(variable.new_values.iter().copied()));
        write_record(&mut file, VARIABLE_ORIGIN, &body);
    }
    let body = shorts(origin.actions.iter().copied());
    write_record(&mut file, ACTION_ORIGIN, &body);
    write_sign_off(file, origin.signer)
}

pub fn write_plan(plan: &Plan) -> Vec<u8> {
    let mut file = Vec::new();
    write_record(&mut file, PLAN, &shorts(plan.steps.iter().copied()));
    write_sign_off(file, plan.signer)
}

fn write_sign_off(mut file: Vec<u8>, signer: u32) -> Vec<u8> {
    let before = file.len() as u32;
    let body = [signer.to_le_bytes(), before.to_le_bytes()].concat();
    write_record(&mut file, SIGN_OFF, &body);
    file
}

fn write_record(file: &mut Vec<u8>, kind: u16, body: &[u8]) {
    file.extend(shorts([body.len() as u16, kind]));
    file.extend(body);
}

fn shorts(numbers: impl IntoIterator<Item = u16>) -> Vec<u8> {
    numbers.into_iter().flat_map(u16::to_le_bytes).collect()
}

fn pairs(facts: &[Fact]) -> Vec<u8> {
    shorts(facts.iter().flat_map(|fact| [fact.variable, fact.value]))
}
