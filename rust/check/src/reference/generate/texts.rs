//! Tasks printed as texts of the translator, and damage to texts.

use std::fmt::Display;

use super::super::files::{Action, Fact, Task, Variable, MOST_BYTES, MOST_COST};
use super::files::{byte_changed, cut, lengthened};
use super::random::Random;

/// The task, without its last actions where a text has no room for them, and a
/// text that states it. Half of the time all costs are 1.
pub fn text(random: &mut Random, task: &Task) -> (Task, Vec<u8>) {
    let mut task = task.clone();
    if random.chance(50) {
        for action in &mut task.actions {
            action.cost = 1;
        }
    }
    loop {
        let text = printed(random, &task, 100);
        if text.len() <= MOST_BYTES {
            return (task, text);
        }
        task.actions.truncate(task.actions.len() * 7 / 8);
    }
}

/// The task as a text: names are free, lists are in any order, and there are
/// mutex groups of any numbers. The metric is 0 half of the times when all
/// costs are 1. Of the conditions on variables that the action sets as many in
/// a hundred are old values; each other one is a prevail condition, on a
/// variable that is then given twice.
pub fn printed(random: &mut Random, task: &Task, old_values: usize) -> Vec<u8> {
    let all_one = task.actions.iter().all(|action| action.cost == 1);
    let metric = !(all_one && random.chance(50));
    let text = Vec::new();
    let mut printer = Printer { random, text };
    for line in ["begin_version", "3", "end_version", "begin_metric"] {
        printer.line(line);
    }
    printer.line(u8::from(metric));
    printer.line("end_metric");
    printer.variables(&task.variables);
    printer.groups();
    printer.line("begin_state");
    for variable in &task.variables {
        printer.line(variable.start);
    }
    printer.line("end_state");
    printer.line("begin_goal");
    printer.facts(task.goal.clone());
    printer.line("end_goal");
    printer.line(task.actions.len());
    for action in &task.actions {
        let any = printer.random.below(MOST_COST as usize + 1) as u32;
        let cost = if metric { action.cost } else { any };
        printer.operator(action, cost, old_values);
    }
    printer.line(0);
    printer.text
}

struct Printer<'a> {
    random: &'a mut Random,
    text: Vec<u8>,
}

impl Printer<'_> {
    fn line(&mut self, line: impl Display) {
        self.text.extend(format!("{line}\n").bytes());
    }

    fn name(&mut self) {
        let name = name(self.random);
        self.text.extend(name);
        self.text.push(b'\n');
    }

    fn variables(&mut self, variables: &[Variable]) {
        self.line(variables.len());
        for variable in variables {
            self.line("begin_variable");
            self.name();
            self.line(-1);
            self.line(variable.size);
            for _ in 0..variable.size {
                self.name();
            }
            self.line("end_variable");
        }
    }

    fn groups(&mut self) {
        let count = self.random.below(4);
        self.line(count);
        for _ in 0..count {
            self.line("begin_mutex_group");
            let count = self.random.below(4);
            self.line(count);
            for _ in 0..count {
                let [variable, value] = [(); 2].map(|_| any_number(self.random));
                self.line(format!("{variable} {value}"));
            }
            self.line("end_mutex_group");
        }
    }

    fn facts(&mut self, mut facts: Vec<Fact>) {
        self.random.shuffle(&mut facts);
        self.line(facts.len());
        for Fact { variable, value } in facts {
            self.line(format!("{variable} {value}"));
        }
    }

    fn operator(&mut self, action: &Action, cost: u32, old_values: usize) {
        self.line("begin_operator");
        self.name();
        let mut effects: Vec<_> = action.effects.iter().map(|&new| (None, new)).collect();
        let mut prevail = Vec::new();
        for &condition in &action.conditions {
            let same = |effect: &&mut (_, Fact)| effect.1.variable == condition.variable;
            match effects.iter_mut().find(same) {
                Some((old, _)) if self.random.chance(old_values) => *old = Some(condition.value),
                _ => prevail.push(condition),
            }
        }
        self.facts(prevail);
        self.random.shuffle(&mut effects);
        self.line(effects.len());
        for (old, Fact { variable, value }) in effects {
            let old = old.map_or(-1, i32::from);
            self.line(format!("0 {variable} {old} {value}"));
        }
        self.line(cost);
        self.line("end_operator");
    }
}

/// Up to 5 bytes other than a line feed, or a line that also stands elsewhere
/// in a text.
fn name(random: &mut Random) -> Vec<u8> {
    const LINES: [&str; 5] = ["end_variable", "begin_operator", "-1", "0", "0 0 -1 1"];
    if random.chance(20) {
        return random.one_of(&LINES).into();
    }
    let byte = |byte: usize| (byte + usize::from(byte >= 10)) as u8;
    let length = random.below(6);
    (0..length).map(|_| byte(random.below(255))).collect()
}

/// A small number, or one of up to 30 digits.
fn any_number(random: &mut Random) -> String {
    if random.chance(50) {
        return random.below(70).to_string();
    }
    let mut digits = random.between(1, 9).to_string();
    for _ in 0..random.below(30) {
        digits += &random.below(10).to_string();
    }
    digits
}

/// The text damaged in one of the ways below, or as any file is.
pub fn damaged_text(random: &mut Random, text: &[u8]) -> Vec<u8> {
    match random.below(10) {
        0 => cut(random, text),
        1 => lengthened(random, text),
        2 => byte_changed(random, text),
        3 => byte_set(random, text),
        4..8 => number_changed(random, text),
        8 => line_repeated(random, text, 0),
        _ => line_repeated(random, text, 2),
    }
}

/// With a digit, a sign or a separator at some offset.
fn byte_set(random: &mut Random, text: &[u8]) -> Vec<u8> {
    let mut set = text.to_vec();
    if !text.is_empty() {
        set[random.below(text.len())] = random.one_of(b"0129- \n\r");
    }
    set
}

/// With another number in place of one, now and then with a byte behind it.
fn number_changed(random: &mut Random, text: &[u8]) -> Vec<u8> {
    let digit = |place: usize| text.get(place).is_some_and(u8::is_ascii_digit);
    let first = |&place: &usize| digit(place) && (place == 0 || !digit(place - 1));
    let numbers: Vec<usize> = (0..text.len()).filter(first).collect();
    if numbers.is_empty() {
        return text.to_vec();
    }
    let from = random.one_of(&numbers);
    let digits = text[from..].iter().take_while(|byte| byte.is_ascii_digit());
    let to = from + digits.count();
    let number = std::str::from_utf8(&text[from..to]).unwrap();
    let mut number = other_number(random, number);
    if random.chance(15) {
        number.push(random.one_of(&[' ', '\n', 'x']));
    }
    [&text[..from], number.as_bytes(), &text[to..]].concat()
}

/// A small number, one at or around a limit, one that has its lowest bytes in
/// common with the number, one of many digits, or none that the format has.
fn other_number(random: &mut Random, number: &str) -> String {
    match random.below(10) {
        0..4 => random.below(6).to_string(),
        4..6 => {
            let limit = random.one_of(&[1, 32, 64, 512, 1_000_000]);
            (limit + random.below(3) - 1).to_string()
        }
        6 => {
            let more = 1 << random.one_of(&[8, 16, 32, 64]);
            (number.parse().unwrap_or(0_u128) % more + more).to_string()
        }
        7 => any_number(random),
        8 => random.one_of(&["-1", "-2", "", "-", "+1"]).to_string(),
        _ => format!("0{number}"),
    }
}

/// With one line so many times: 0 deletes it, 2 doubles it.
fn line_repeated(random: &mut Random, text: &[u8], times: usize) -> Vec<u8> {
    let lines: Vec<&[u8]> = text.split_inclusive(|&byte| byte == b'\n').collect();
    let chosen = random.below(lines.len().max(1));
    let times_of = |place| if place == chosen { times } else { 1 };
    let repeated = (0..lines.len()).map(|place| lines[place].repeat(times_of(place)));
    repeated.flatten().collect()
}
