//! Raw calls of the ten commands.

use super::Generator;
use crate::book::{Number, Pair, COMPONENTS, FACILITIES, IMPLEMENTATIONS, LEFT_OUT, VERSIONS};
use crate::calls::Call;
use crate::language::{Command, Reader};
use crate::random::Random;

/// A number at or above the limit, or any below it.
fn odd(random: &mut Random, limit: Number) -> Number {
    let above = [limit, limit, limit + 1, limit + 31, 255.max(limit), 200.max(limit)];
    match random.below(3) {
        0 => random.below(limit as usize) as Number,
        _ => random.pick(&above).unwrap_or(limit),
    }
}

/// Empties the list, doubles or drops an item, or puts one in.
fn spoil_list<T: Clone>(random: &mut Random, list: &mut Vec<T>, item: T) {
    let place = random.below(list.len());
    match random.below(4) {
        0 => list.clear(),
        1 => list.extend(list.get(place).cloned()),
        2 => list.truncate(place),
        _ => list.insert(place, item),
    }
}

/// Changes one number or one list of the call.
fn spoil(random: &mut Random, call: &mut Call) {
    match call {
        Call::AddSpec { .. } => spoil_spec(random, call),
        Call::AddMod { .. } => spoil_module(random, call),
        Call::AddSys { .. } => spoil_system(random, call),
        Call::AddModvar { component, version, requires, implementation } => match random.below(5) {
            0 => *component = odd(random, COMPONENTS),
            1 => *version = odd(random, VERSIONS),
            2 => *implementation = odd(random, IMPLEMENTATIONS),
            _ => *requires = random.bits() & random.bits(),
        },
        Call::AddSysvar { component, version, composition } => match random.below(6) {
            0 => *component = odd(random, COMPONENTS),
            1 => *version = odd(random, VERSIONS),
            _ => spoil_composition(random, composition),
        },
        Call::DelSpec(component) | Call::DelMod(component) | Call::DelSys(component) => {
            *component = odd(random, COMPONENTS);
        }
        Call::DelModvar(component, version) | Call::DelSysvar(component, version) => {
            match random.chance(50) {
                true => *component = odd(random, COMPONENTS),
                false => *version = odd(random, VERSIONS),
            }
        }
    }
}

fn spoil_composition(random: &mut Random, composition: &mut Vec<Pair>) {
    let version = match random.chance(50) {
        true => LEFT_OUT,
        false => odd(random, VERSIONS),
    };
    let member = (odd(random, COMPONENTS), version);
    spoil_list(random, composition, member);
}

fn spoil_spec(random: &mut Random, call: &mut Call) {
    let Call::AddSpec { component, provides, versions, requires, standard } = call else {
        return;
    };
    match random.below(7) {
        0 => *component = odd(random, COMPONENTS),
        1 => *provides = random.bits() & random.bits(),
        2 => spoil_list(random, requires, 0),
        3 => spoil_list(random, versions, VERSIONS),
        4 => *standard = odd(random, VERSIONS),
        5 => {
            versions.clear();
            requires.clear();
        }
        _ => {
            versions.push(odd(random, VERSIONS));
            requires.push(random.bits() & random.bits() & random.bits());
        }
    }
}

fn spoil_module(random: &mut Random, call: &mut Call) {
    let Call::AddMod { component, versions, implementations } = call else {
        return;
    };
    match random.below(6) {
        0 => *component = odd(random, COMPONENTS),
        1 => spoil_list(random, versions, VERSIONS),
        2 => spoil_list(random, implementations, IMPLEMENTATIONS),
        3 => {
            versions.clear();
            implementations.clear();
        }
        _ => {
            versions.push(odd(random, VERSIONS));
            implementations.push(odd(random, IMPLEMENTATIONS));
        }
    }
}

fn spoil_system(random: &mut Random, call: &mut Call) {
    let Call::AddSys { component, usable, versions, compositions } = call else {
        return;
    };
    match random.below(7) {
        0 => *component = odd(random, COMPONENTS),
        1 => {
            let other = odd(random, COMPONENTS);
            spoil_list(random, usable, other);
        }
        2 => usable.clear(),
        3 => spoil_list(random, versions, VERSIONS),
        4 => spoil_list(random, compositions, Vec::new()),
        5 => {
            versions.clear();
            compositions.clear();
        }
        _ => {
            let place = random.below(compositions.len());
            if let Some(composition) = compositions.get_mut(place) {
                spoil_composition(random, composition);
            }
        }
    }
}

impl Generator {
    /// Names every number, so that a command by names stands for any call.
    fn name_all(&mut self) {
        let tables = &mut self.session.tables;
        let named = [
            (&mut tables.components, COMPONENTS),
            (&mut tables.versions, VERSIONS),
            (&mut tables.facilities, FACILITIES),
            (&mut tables.implementations, IMPLEMENTATIONS),
        ];
        for (table, limit) in named {
            table.places = (0..limit).map(|n| (n, format!("n{n}").into_bytes())).collect();
        }
        let pool = |random: &mut Random, limit: Number, count: usize| -> Vec<String> {
            let all: Vec<String> = (0..limit).map(|n| format!("n{n}")).collect();
            random.some(&all, count)
        };
        self.facilities = pool(&mut self.random, FACILITIES, 20);
        self.versions = pool(&mut self.random, VERSIONS, 12);
        let implementations = pool(&mut self.random, IMPLEMENTATIONS, 20);
        self.implementations = implementations.iter().map(|i| format!("\"{i}\"")).collect();
        self.fresh = 0;
    }

    /// The calls that a step's commands stand for.
    fn calls_of(&mut self, text: &[u8]) -> Vec<Call> {
        let mut reader = Reader::new(text);
        let mut calls = Vec::new();
        while let Ok(Some(command)) = reader.command() {
            calls.extend(match command {
                Command::DelModvar(c, v) => self.pair_call(Call::DelModvar, c, v),
                Command::DelSysvar(c, v) => self.pair_call(Call::DelSysvar, c, v),
                Command::DelSpec(_) | Command::DelMod(_) | Command::DelSys(_) => {
                    self.session.deleting_call(&command).ok()
                }
                _ => self.session.tables.clone().adding_call(&command).ok(),
            });
        }
        calls
    }

    fn pair_call(&self, make: fn(Number, Number) -> Call, c: &[u8], v: &[u8]) -> Option<Call> {
        let component = self.session.tables.components.number(c)?;
        Some(make(component, self.session.tables.versions.number(v)?))
    }

    /// So many lines of calls, some of them with a number or list spoiled.
    pub(super) fn calls(&mut self, count: usize) {
        self.name_all();
        self.loose = false;
        let mut lines: Vec<String> = Vec::new();
        let mut steps = 0;
        while lines.len() < count && steps < count.saturating_mul(20) {
            steps += 1;
            let before = self.session.book.clone();
            self.text.clear();
            match self.random.chance(60) {
                true => self.grow(),
                false => self.go_wrong(),
            }
            self.session.book = before;
            let text = std::mem::take(&mut self.text);
            for mut call in self.calls_of(&text) {
                if self.random.chance(20) {
                    spoil(&mut self.random, &mut call);
                }
                // A refusal leaves the book as it is.
                let _ = call.perform(&mut self.session.book);
                lines.push(call.line());
            }
        }
        lines.truncate(count);
        self.text = lines.into_iter().flat_map(|line| (line + "\n").into_bytes()).collect();
    }
}
