//! The book as text.

use crate::book::{ask, Book, Number, Specification, System};
use crate::language::{is_implementation, is_name};
use crate::session::{Table, Tables};
use std::collections::{BTreeMap, BTreeSet};

/// "no name twice in a table"
fn no_name_twice(table: &Table) -> bool {
    let names: BTreeSet<&Vec<u8>> = table.places.values().collect();
    names.len() == table.places.len()
}

/// "one valid name for each number in the book"
fn names_valid(book: &Book, tables: &Tables) -> bool {
    let name = |table: &Table, number: &Number| is_name(table.name(*number));
    let specified = book.specifications.iter().all(|(component, specification)| {
        let mut facilities =
            specification.provides.iter().chain(specification.versions.values().flatten());
        name(&tables.components, component)
            && specification.versions.keys().all(|version| name(&tables.versions, version))
            && facilities.all(|facility| name(&tables.facilities, facility))
    });
    let mut implementations = book.modules.values().flat_map(BTreeMap::values);
    specified
        && implementations.all(|number| is_implementation(tables.implementations.name(*number)))
}

/// "For text also: do the tables hand in one valid name for each number in the
/// book, no name twice in a table?"
pub fn tables_fit(book: &Book, tables: &Tables) -> bool {
    no_name_twice(&tables.components)
        && no_name_twice(&tables.versions)
        && no_name_twice(&tables.facilities)
        && no_name_twice(&tables.implementations)
        && names_valid(book, tables)
}

/// The book's text: "specs, modules, systems, each by rising bytes of the
/// name"; 25 for a book or tables that are not sound, 22 where a slice of so
/// many bytes is too short.
pub fn text(book: &Book, tables: &Tables, slice: usize) -> Result<Vec<u8>, Number> {
    ask(book.is_sound() && tables_fit(book, tables), 25)?;
    let mut lines: Vec<Vec<u8>> = Vec::new();
    for component in by_name(book.specifications.keys(), &tables.components) {
        lines.push(spec_line(component, &book.specifications[&component], tables));
    }
    for component in by_name(book.modules.keys(), &tables.components) {
        lines.push(module_line(component, &book.modules[&component], tables));
    }
    for component in systems_in_order(book, tables) {
        lines.push(system_line(component, &book.systems[&component], tables));
    }
    let text = lines.concat();
    ask(text.len() <= slice, 22)?;
    Ok(text)
}

/// "by rising bytes of the name (a name before its extensions), as are all names within"
fn by_name<'a>(numbers: impl IntoIterator<Item = &'a Number>, table: &Table) -> Vec<Number> {
    let mut numbers: Vec<Number> = numbers.into_iter().copied().collect();
    numbers.sort_by_key(|number| table.name(*number));
    numbers
}

/// "The next system is always the lowest name whose usable systems are all out."
fn systems_in_order(book: &Book, tables: &Tables) -> Vec<Number> {
    let mut open = by_name(book.systems.keys(), &tables.components);
    let mut order = Vec::new();
    let ready = |component: &Number, open: &[Number]| {
        let mut usable = book.systems[component].usable.iter();
        usable.all(|usable| !open.contains(usable))
    };
    while let Some(next) = open.iter().position(|component| ready(component, &open)) {
        order.push(open.remove(next));
    }
    order
}

fn names<'a>(numbers: impl IntoIterator<Item = &'a Number>, table: &Table) -> Vec<u8> {
    let names = by_name(numbers, table).into_iter().map(|number| table.name(number));
    names.collect::<Vec<_>>().join(&b", "[..])
}

/// `spec loop provides hold; std p requires cool, temp end`; "with no facility
/// it reads `provides ;`"
fn spec_line(component: Number, specification: &Specification, tables: &Tables) -> Vec<u8> {
    let version = |version: Number| {
        let mut text = Vec::new();
        if version == specification.standard {
            text.extend(b"std ");
        }
        text.extend(tables.versions.name(version));
        let required = &specification.versions[&version];
        if !required.is_empty() {
            text.extend(b" requires ");
            text.extend(names(required, &tables.facilities));
        }
        text
    };
    let mut head = b"spec ".to_vec();
    head.extend(tables.components.name(component));
    head.extend(b" provides ");
    head.extend(names(&specification.provides, &tables.facilities));
    line(head, specification.versions.keys(), version, tables)
}

/// `mod loop; p impl "x" end`
fn module_line(component: Number, module: &BTreeMap<Number, Number>, tables: &Tables) -> Vec<u8> {
    let version = |version: Number| {
        let mut text = tables.versions.name(version).to_vec();
        text.extend(b" impl \"");
        text.extend(tables.implementations.name(module[&version]));
        text.push(b'"');
        text
    };
    let mut head = b"mod ".to_vec();
    head.extend(tables.components.name(component));
    line(head, module.keys(), version, tables)
}

/// `sys tank use loop, probe; a = loop.p, probe.one end`: "Members show their version."
fn system_line(component: Number, system: &System, tables: &Tables) -> Vec<u8> {
    let version = |version: Number| {
        let mut text = tables.versions.name(version).to_vec();
        text.extend(b" = ");
        let composition = &system.compositions[&version];
        let members: Vec<Vec<u8>> = by_name(composition.keys(), &tables.components)
            .into_iter()
            .map(|member| {
                let version = tables.versions.name(composition[&member]);
                [tables.components.name(member), version].join(&b'.')
            })
            .collect();
        text.extend(members.join(&b", "[..]));
        text
    };
    let mut head = b"sys ".to_vec();
    head.extend(tables.components.name(component));
    head.extend(b" use ");
    head.extend(names(&system.usable, &tables.components));
    line(head, system.compositions.keys(), version, tables)
}

/// "Several versions are parted by "; "". "Every line ends with a line feed."
fn line<'a>(
    head: Vec<u8>,
    versions: impl IntoIterator<Item = &'a Number>,
    text: impl Fn(Number) -> Vec<u8>,
    tables: &Tables,
) -> Vec<u8> {
    let mut items = vec![head];
    items.extend(by_name(versions, &tables.versions).into_iter().map(text));
    let mut line = items.join(&b"; "[..]);
    line.extend(b" end\n");
    line
}
