//! Tables of names, and the session on a text.

use crate::book::{
    ask, Book, Number, Pair, COMPONENTS, FACILITIES, IMPLEMENTATIONS, LEFT_OUT, VERSIONS,
};
use crate::calls::Call;
use crate::language::{Command, Member, Name, Reader, Requirement};
use crate::written;
use std::collections::BTreeMap;

/// A table of names: places below a limit, some of them held.
#[derive(Clone, Debug, PartialEq, Eq)]
pub struct Table {
    limit: Number,
    pub places: BTreeMap<Number, Vec<u8>>,
}

/// "Four tables hold names: 32 components, 64 versions, 64 facilities, 256
/// implementations."
#[derive(Clone, Debug, PartialEq, Eq)]
pub struct Tables {
    pub components: Table,
    pub versions: Table,
    pub facilities: Table,
    pub implementations: Table,
}

/// What a call of the session gives: the listing or 22, and the book and
/// tables as reached; "after 22 both are empty".
#[derive(Clone, Debug)]
pub struct Outcome {
    pub listing: Result<Vec<u8>, Number>,
    pub book: Book,
    pub tables: Tables,
}

/// The rows of an accepted command.
#[derive(Clone, Debug, PartialEq, Eq)]
pub enum Rows {
    None,
    Names(Vec<Vec<u8>>),
    Pairs(Vec<(Vec<u8>, Vec<u8>)>),
    Text(Vec<u8>),
}

/// A session's book and tables between two commands.
#[derive(Clone, Debug, Default)]
pub struct Session {
    pub book: Book,
    pub tables: Tables,
}

impl Table {
    fn new(limit: Number) -> Self {
        Table { limit, places: BTreeMap::new() }
    }

    /// The number of a name; "a name that stands in no table has no number".
    pub fn number(&self, name: &[u8]) -> Option<Number> {
        let mut places = self.places.iter();
        let found = places.find(|(_, held)| held.as_slice() == name);
        found.map(|(number, _)| *number)
    }

    /// The name at a place; empty where none is held.
    pub fn name(&self, number: Number) -> &[u8] {
        self.places.get(&number).map_or(&[], Vec::as_slice)
    }

    /// "puts its new names into the lowest free places"; "is there a place for
    /// each new name? no: 24"
    fn number_or_place(&mut self, name: &[u8]) -> Result<Number, Number> {
        if let Some(number) = self.number(name) {
            return Ok(number);
        }
        let mut places = 0..self.limit;
        let free = places.find(|number| !self.places.contains_key(number));
        let number = free.ok_or(24u32)?;
        self.places.insert(number, name.to_vec());
        Ok(number)
    }

    /// How many places are free.
    pub fn free(&self) -> usize {
        (self.limit as usize).saturating_sub(self.places.len())
    }
}

impl Default for Tables {
    fn default() -> Self {
        Tables {
            components: Table::new(COMPONENTS),
            versions: Table::new(VERSIONS),
            facilities: Table::new(FACILITIES),
            implementations: Table::new(IMPLEMENTATIONS),
        }
    }
}

impl Tables {
    /// The set of the facilities as a 64-bit number, with places for new names.
    fn facility_set(&mut self, names: &[Name]) -> Result<u64, Number> {
        names.iter().try_fold(0, |set, name| Ok(set | 1 << self.facilities.number_or_place(name)?))
    }

    /// The members of a composition, with places for new names.
    fn composition(&mut self, members: &[Member]) -> Result<Vec<Pair>, Number> {
        let number = |(member, version): &Member| {
            let component = self.components.number_or_place(member)?;
            let version = match version {
                Some(version) => self.versions.number_or_place(version)?,
                None => LEFT_OUT,
            };
            Ok((component, version))
        };
        members.iter().map(number).collect()
    }

    /// The numbers of names in one table, with places for new ones.
    fn components_of(&mut self, names: &[Name]) -> Result<Vec<Number>, Number> {
        let number = |name: &Name| self.components.number_or_place(name);
        names.iter().map(number).collect()
    }

    /// The call of an adding command, with places for its new names.
    pub fn adding_call(&mut self, command: &Command) -> Result<Call, Number> {
        match command {
            Command::Spec { component, provides, versions, standard } => {
                self.add_spec(component, provides, versions, standard)
            }
            Command::Mod { component, versions } => self.add_mod(component, versions),
            Command::Sys { component, usable, compositions } => {
                self.add_sys(component, usable, compositions)
            }
            Command::Modvar { component, version, requires, implementation } => {
                Ok(Call::AddModvar {
                    component: self.components.number_or_place(component)?,
                    version: self.versions.number_or_place(version)?,
                    requires: self.facility_set(requires)?,
                    implementation: self.implementations.number_or_place(implementation)?,
                })
            }
            Command::Sysvar { component, version, composition } => Ok(Call::AddSysvar {
                component: self.components.number_or_place(component)?,
                version: self.versions.number_or_place(version)?,
                composition: self.composition(composition)?,
            }),
            // No other command comes here.
            _ => Err(23),
        }
    }

    fn add_spec(
        &mut self,
        component: Name,
        provided: &[Name],
        requirements: &[Requirement],
        standard: Name,
    ) -> Result<Call, Number> {
        let component = self.components.number_or_place(component)?;
        let provides = self.facility_set(provided)?;
        let mut versions = Vec::new();
        let mut requires = Vec::new();
        for (version, required) in requirements {
            versions.push(self.versions.number_or_place(version)?);
            requires.push(self.facility_set(required)?);
        }
        Ok(Call::AddSpec {
            component,
            provides,
            versions,
            requires,
            standard: self.versions.number_or_place(standard)?,
        })
    }

    fn add_mod(&mut self, component: Name, listed: &[(Name, Name)]) -> Result<Call, Number> {
        let component = self.components.number_or_place(component)?;
        let mut versions = Vec::new();
        let mut implementations = Vec::new();
        for (version, implementation) in listed {
            versions.push(self.versions.number_or_place(version)?);
            implementations.push(self.implementations.number_or_place(implementation)?);
        }
        Ok(Call::AddMod { component, versions, implementations })
    }

    fn add_sys(
        &mut self,
        component: Name,
        usable: &[Name],
        listed: &[(Name, Vec<Member>)],
    ) -> Result<Call, Number> {
        let component = self.components.number_or_place(component)?;
        let usable = self.components_of(usable)?;
        let mut versions = Vec::new();
        let mut compositions = Vec::new();
        for (version, members) in listed {
            versions.push(self.versions.number_or_place(version)?);
            compositions.push(self.composition(members)?);
        }
        Ok(Call::AddSys { component, usable, versions, compositions })
    }

    fn pair_names(&self, pairs: Vec<Pair>) -> Rows {
        let names = |(component, version): Pair| {
            let component = self.components.name(component).to_vec();
            (component, self.versions.name(version).to_vec())
        };
        Rows::Pairs(pairs.into_iter().map(names).collect())
    }
}

fn names_in(table: &Table, numbers: impl IntoIterator<Item = Number>) -> Rows {
    let names = numbers.into_iter().map(|number| table.name(number).to_vec());
    Rows::Names(names.collect())
}

impl Session {
    /// Carries out one command: its rows, or the number at the first no.
    pub fn perform(&mut self, command: &Command) -> Result<Rows, Number> {
        match command {
            Command::Spec { .. }
            | Command::Mod { .. }
            | Command::Sys { .. }
            | Command::Modvar { .. }
            | Command::Sysvar { .. } => self.add(command),
            Command::DelSpec(_)
            | Command::DelMod(_)
            | Command::DelSys(_)
            | Command::DelModvar(..)
            | Command::DelSysvar(..) => {
                self.deleting_call(command)?.perform(&mut self.book)?;
                Ok(Rows::None)
            }
            _ => self.query(command),
        }
    }

    /// "An accepted command puts its new names into the lowest free places in
    /// order of mention; the questions see the numbers that they would get."
    fn add(&mut self, command: &Command) -> Result<Rows, Number> {
        let mut tables = self.tables.clone();
        tables.adding_call(command)?.perform(&mut self.book)?;
        self.tables = tables;
        Ok(Rows::None)
    }

    /// The number of a component outside the adding commands, or the answer
    /// that it doesn't exist.
    fn component(&self, name: Name, missing: Number) -> Result<Number, Number> {
        self.tables.components.number(name).ok_or(missing)
    }

    /// A component and version outside the adding commands. A version in no
    /// table is asked after the component, and then gives 10.
    fn pair(
        &self,
        (component, version): (Name, Name),
        exists: fn(&Book, Number) -> bool,
        missing: Number,
    ) -> Result<Pair, Number> {
        let component = self.component(component, missing)?;
        ask(exists(&self.book, component), missing)?;
        let version = self.tables.versions.number(version).ok_or(10u32)?;
        Ok((component, version))
    }

    /// The call of a deleting command, or the answer that a name doesn't exist.
    pub fn deleting_call(&self, command: &Command) -> Result<Call, Number> {
        Ok(match command {
            Command::DelSpec(c) => Call::DelSpec(self.component(c, 4)?),
            Command::DelMod(c) => Call::DelMod(self.component(c, 6)?),
            Command::DelSys(c) => Call::DelSys(self.component(c, 7)?),
            Command::DelModvar(c, v) => {
                let (component, version) = self.pair((c, v), Book::is_module, 6)?;
                Call::DelModvar(component, version)
            }
            Command::DelSysvar(c, v) => {
                let (component, version) = self.pair((c, v), Book::is_system, 7)?;
                Call::DelSysvar(component, version)
            }
            // No other command comes here.
            _ => return Err(23),
        })
    }

    fn query(&self, command: &Command) -> Result<Rows, Number> {
        let (book, tables) = (&self.book, &self.tables);
        match command {
            Command::Supplies(c) => {
                let supplied = book.supplies(self.component(c, 4)?)?;
                Ok(names_in(&tables.facilities, supplied))
            }
            Command::Needs(c, v) => {
                let (component, version) = self.pair((c, v), Book::is_specified, 4)?;
                Ok(names_in(&tables.facilities, book.needs(component, version)?))
            }
            Command::Choice(wanted) => self.choice(wanted),
            Command::Standard(c) => {
                let version = book.standard(self.component(c, 4)?)?;
                Ok(names_in(&tables.versions, [version]))
            }
            Command::Undefined => Ok(names_in(&tables.components, book.undefined()?)),
            Command::Unused => Ok(names_in(&tables.components, book.unused()?)),
            Command::Whereused(c) => {
                let systems = book.whereused(self.component(c, 4)?)?;
                Ok(names_in(&tables.components, systems))
            }
            Command::Parts(c, v) => {
                let (component, version) = self.pair((c, v), Book::is_specified, 4)?;
                let parts = book.parts(component, version, usize::MAX)?;
                Ok(tables.pair_names(parts.rows))
            }
            Command::Out => Ok(Rows::Text(written::text(book, tables, usize::MAX)?)),
            // No other command comes here.
            _ => Err(23),
        }
    }

    /// "a name that stands in no table has no number: [..] CHOICE of it finds nothing"
    fn choice(&self, wanted: &[Name]) -> Result<Rows, Number> {
        let mut set = 0;
        for name in wanted {
            let Some(facility) = self.tables.facilities.number(name) else {
                return Ok(Rows::Pairs(Vec::new()));
            };
            set |= 1 << facility;
        }
        Ok(self.tables.pair_names(self.book.choice(set, usize::MAX)?))
    }
}

/// "Rows: command number from 1, a comma, 0 or the refusal number. After a 0
/// come the query's rows: command number, then one name, or component and version."
fn write_rows(listing: &mut Vec<u8>, number: usize, answer: &Result<Rows, Number>) {
    let mut row = |fields: &[&[u8]]| {
        listing.extend(number.to_string().bytes());
        for field in fields {
            listing.push(b',');
            listing.extend(*field);
        }
        listing.push(b'\n');
    };
    match answer {
        Err(refusal) => row(&[refusal.to_string().as_bytes()]),
        Ok(rows) => {
            row(&[b"0"]);
            match rows {
                Rows::None => {}
                Rows::Names(names) => names.iter().for_each(|name| row(&[name])),
                Rows::Pairs(pairs) => pairs.iter().for_each(|(c, v)| row(&[c, v])),
                Rows::Text(text) => listing.extend(text),
            }
        }
    }
}

/// The session on a text, with a slice of so many bytes: "A listing longer
/// than the slice gives 22".
pub fn session(text: &[u8], slice: usize) -> Outcome {
    watched(text, slice, |_, _| {})
}

/// The session, telling each command's word ("text" for 23) and answer.
pub fn watched(text: &[u8], slice: usize, mut tell: impl FnMut(&str, Number)) -> Outcome {
    let mut session = Session::default();
    let mut reader = Reader::new(text);
    let mut listing = Vec::new();
    for number in 1.. {
        let command = match reader.command() {
            Ok(None) => break,
            Ok(Some(command)) => Some(command),
            Err(_) => None,
        };
        let answer = command.as_ref().map_or(Err(23), |c| session.perform(c));
        let word = command.as_ref().map_or("text", Command::word);
        tell(word, answer.as_ref().err().copied().unwrap_or(0));
        write_rows(&mut listing, number, &answer);
        if listing.len() > slice {
            return Outcome { listing: Err(22), book: Book::default(), tables: Tables::default() };
        }
        if command.is_none() {
            break;
        }
    }
    Outcome { listing: Ok(listing), book: session.book, tables: session.tables }
}

/// The session on a lent slice: the listing fills its start and the rest is
/// untouched; 22 gives "a slice of zeros".
pub fn session_on_slice(text: &[u8], slice: &mut [u8]) -> Result<usize, Number> {
    match session(text, slice.len()).listing {
        Ok(listing) => {
            slice[..listing.len()].copy_from_slice(&listing);
            Ok(listing.len())
        }
        Err(number) => {
            slice.fill(0);
            Err(number)
        }
    }
}
