//! Calls of the ten commands with raw numbers, and their form as lines.
//!
//! A line is the command's word and numbers, parted by spaces. A list is its
//! length and its items; a set of facilities is one 64-bit number; a member is
//! a component and a version, `-` for a version left out:
//! ```text
//! add-spec COMPONENT PROVIDES VERSIONS REQUIRES STANDARD
//! add-mod COMPONENT VERSIONS IMPLEMENTATIONS
//! add-sys COMPONENT USABLE VERSIONS COMPOSITIONS
//! del-spec COMPONENT
//! del-mod COMPONENT
//! del-sys COMPONENT
//! add-modvar COMPONENT VERSION REQUIRES IMPLEMENTATION
//! add-sysvar COMPONENT VERSION COMPOSITION
//! del-modvar COMPONENT VERSION
//! del-sysvar COMPONENT VERSION
//! ```

use crate::book::{bits, number_of, Answer, Book, Number, Pair, LEFT_OUT};
use std::str::SplitAsciiWhitespace;

/// A call of one of the ten commands with raw lists of numbers.
#[derive(Clone, Debug, PartialEq, Eq)]
pub enum Call {
    AddSpec {
        component: Number,
        provides: u64,
        versions: Vec<Number>,
        requires: Vec<u64>,
        standard: Number,
    },
    AddMod {
        component: Number,
        versions: Vec<Number>,
        implementations: Vec<Number>,
    },
    AddSys {
        component: Number,
        usable: Vec<Number>,
        versions: Vec<Number>,
        compositions: Vec<Vec<Pair>>,
    },
    DelSpec(Number),
    DelMod(Number),
    DelSys(Number),
    AddModvar {
        component: Number,
        version: Number,
        requires: u64,
        implementation: Number,
    },
    AddSysvar {
        component: Number,
        version: Number,
        composition: Vec<Pair>,
    },
    DelModvar(Number, Number),
    DelSysvar(Number, Number),
}

impl Call {
    /// Carries out the call on a book.
    pub fn perform(&self, book: &mut Book) -> Answer {
        match self {
            Call::AddSpec { component, provides, versions, requires, standard } => {
                book.add_spec(*component, *provides, versions, requires, *standard)
            }
            Call::AddMod { component, versions, implementations } => {
                book.add_mod(*component, versions, implementations)
            }
            Call::AddSys { component, usable, versions, compositions } => {
                book.add_sys(*component, usable, versions, compositions)
            }
            Call::DelSpec(component) => book.del_spec(*component),
            Call::DelMod(component) => book.del_mod(*component),
            Call::DelSys(component) => book.del_sys(*component),
            Call::AddModvar { component, version, requires, implementation } => {
                book.add_modvar(*component, *version, *requires, *implementation)
            }
            Call::AddSysvar { component, version, composition } => {
                book.add_sysvar(*component, *version, composition)
            }
            Call::DelModvar(component, version) => book.del_modvar(*component, *version),
            Call::DelSysvar(component, version) => book.del_sysvar(*component, *version),
        }
    }

    /// The word that begins the line.
    pub fn word(&self) -> &'static str {
        match self {
            Call::AddSpec { .. } => "add-spec",
            Call::AddMod { .. } => "add-mod",
            Call::AddSys { .. } => "add-sys",
            Call::DelSpec(_) => "del-spec",
            Call::DelMod(_) => "del-mod",
            Call::DelSys(_) => "del-sys",
            Call::AddModvar { .. } => "add-modvar",
            Call::AddSysvar { .. } => "add-sysvar",
            Call::DelModvar(..) => "del-modvar",
            Call::DelSysvar(..) => "del-sysvar",
        }
    }

    /// The call as a line, without its line feed.
    pub fn line(&self) -> String {
        let word = self.word();
        match self {
            Call::AddSpec { component, provides, versions, requires, standard } => {
                let (versions, requires) = (list(versions), list(requires));
                format!("{word} {component} {provides} {versions} {requires} {standard}")
            }
            Call::AddMod { component, versions, implementations } => {
                format!("{word} {component} {} {}", list(versions), list(implementations))
            }
            Call::AddSys { component, usable, versions, compositions } => {
                let composed: Vec<String> = compositions.iter().map(|c| members(c)).collect();
                let (usable, versions, composed) = (list(usable), list(versions), list(&composed));
                format!("{word} {component} {usable} {versions} {composed}")
            }
            Call::AddModvar { component, version, requires, implementation } => {
                format!("{word} {component} {version} {requires} {implementation}")
            }
            Call::AddSysvar { component, version, composition } => {
                format!("{word} {component} {version} {}", members(composition))
            }
            Call::DelSpec(component) | Call::DelMod(component) | Call::DelSys(component) => {
                format!("{word} {component}")
            }
            Call::DelModvar(component, version) | Call::DelSysvar(component, version) => {
                format!("{word} {component} {version}")
            }
        }
    }

    /// Reads a line; none where it has not this form.
    pub fn read(line: &str) -> Option<Call> {
        let mut words = line.split_ascii_whitespace();
        let word = words.next()?;
        let fields = &mut words;
        let call = match word {
            "add-spec" => Call::AddSpec {
                component: number(fields)?,
                provides: number(fields)?,
                versions: read_list(fields, number)?,
                requires: read_list(fields, number)?,
                standard: number(fields)?,
            },
            "add-mod" => Call::AddMod {
                component: number(fields)?,
                versions: read_list(fields, number)?,
                implementations: read_list(fields, number)?,
            },
            "add-sys" => Call::AddSys {
                component: number(fields)?,
                usable: read_list(fields, number)?,
                versions: read_list(fields, number)?,
                compositions: read_list(fields, |fields| read_list(fields, member))?,
            },
            "add-modvar" => Call::AddModvar {
                component: number(fields)?,
                version: number(fields)?,
                requires: number(fields)?,
                implementation: number(fields)?,
            },
            "add-sysvar" => Call::AddSysvar {
                component: number(fields)?,
                version: number(fields)?,
                composition: read_list(fields, member)?,
            },
            _ => read_deleting(word, fields)?,
        };
        words.next().is_none().then_some(call)
    }
}

fn list<T: ToString>(items: &[T]) -> String {
    let mut words = vec![items.len().to_string()];
    words.extend(items.iter().map(T::to_string));
    words.join(" ")
}

fn members(composition: &[Pair]) -> String {
    let members: Vec<String> = composition
        .iter()
        .map(|(member, version)| match version {
            &LEFT_OUT => format!("{member} -"),
            version => format!("{member} {version}"),
        })
        .collect();
    list(&members)
}

fn number<T: std::str::FromStr>(fields: &mut SplitAsciiWhitespace) -> Option<T> {
    fields.next()?.parse().ok()
}

fn member(fields: &mut SplitAsciiWhitespace) -> Option<Pair> {
    let component = number(fields)?;
    let version = match fields.next()? {
        "-" => LEFT_OUT,
        word => word.parse().ok()?,
    };
    Some((component, version))
}

fn read_list<T>(
    fields: &mut SplitAsciiWhitespace,
    item: impl Fn(&mut SplitAsciiWhitespace) -> Option<T>,
) -> Option<Vec<T>> {
    let length: usize = number(fields)?;
    (0..length).map(|_| item(fields)).collect()
}

fn read_deleting(word: &str, fields: &mut SplitAsciiWhitespace) -> Option<Call> {
    let component = number(fields)?;
    Some(match word {
        "del-spec" => Call::DelSpec(component),
        "del-mod" => Call::DelMod(component),
        "del-sys" => Call::DelSys(component),
        "del-modvar" => Call::DelModvar(component, number(fields)?),
        "del-sysvar" => Call::DelSysvar(component, number(fields)?),
        _ => return None,
    })
}

/// Carries out lines of calls on an empty book. A row for each call: its
/// number from 1 and its answer; then the book and the parts list of each pair.
/// The number of the first line that is no call, where there is one.
pub fn run(lines: &str) -> Result<String, usize> {
    let mut book = Book::default();
    let mut rows = String::new();
    for (place, line) in lines.lines().enumerate() {
        let call = Call::read(line).ok_or(place + 1)?;
        let answer = number_of(call.perform(&mut book));
        rows += &format!("{},{answer}\n", place + 1);
    }
    Ok(rows + &book_lines(&book) + &parts_lines(&book))
}

/// The book by numbers:
/// ```text
/// spec COMPONENT PROVIDES STANDARD VERSIONS REQUIRES
/// mod COMPONENT VERSIONS IMPLEMENTATIONS
/// sys COMPONENT USABLE VERSIONS COMPOSITIONS
/// ```
pub fn book_lines(book: &Book) -> String {
    let mut lines = String::new();
    for (component, specification) in &book.specifications {
        let provides = bits(&specification.provides);
        let versions: Vec<&Number> = specification.versions.keys().collect();
        let requires: Vec<u64> = specification.versions.values().map(bits).collect();
        let (versions, requires) = (list(&versions), list(&requires));
        let standard = specification.standard;
        lines += &format!("spec {component} {provides} {standard} {versions} {requires}\n");
    }
    for (component, module) in &book.modules {
        let versions: Vec<&Number> = module.keys().collect();
        let implementations: Vec<&Number> = module.values().collect();
        lines += &format!("mod {component} {} {}\n", list(&versions), list(&implementations));
    }
    for (component, system) in &book.systems {
        let usable: Vec<&Number> = system.usable.iter().collect();
        let versions: Vec<&Number> = system.compositions.keys().collect();
        let composed: Vec<String> = system
            .compositions
            .keys()
            .map(|version| members(&book.members((*component, *version))))
            .collect();
        let (usable, versions, composed) = (list(&usable), list(&versions), list(&composed));
        lines += &format!("sys {component} {usable} {versions} {composed}\n");
    }
    lines
}

/// The parts list of each pair: `parts COMPONENT VERSION DEPTH ROWS`, the
/// depth being the longest chain and a row a component and a version.
pub fn parts_lines(book: &Book) -> String {
    let mut lines = String::new();
    for (component, version) in book.pairs() {
        if let Ok(parts) = book.parts(component, version, usize::MAX) {
            let rows = members(&parts.rows);
            lines += &format!("parts {component} {version} {} {rows}\n", parts.depth);
        }
    }
    lines
}
