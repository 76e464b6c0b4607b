//! What the calls of crate `bench_host` carry: numbers and slices.

use plain::book::{Number, Pair, LEFT_OUT};
use plain::calls::Call;

/// The mark of a member whose version is left out.
pub const PROVED_LEFT_OUT: usize = 65535;

/// What a call carries, in the form of `version_book_call`.
#[derive(Clone, Debug, Default)]
pub struct Carried {
    pub kind: usize,
    pub c: usize,
    pub v: usize,
    pub i: usize,
    pub set: u64,
    pub usable: Vec<usize>,
    pub versions: Vec<usize>,
    pub lengths: Vec<usize>,
    pub members: Vec<usize>,
    pub chosen: Vec<usize>,
    pub required: Vec<u64>,
}

pub fn wide(number: Number) -> usize {
    number as usize
}

fn all_wide(numbers: &[Number]) -> Vec<usize> {
    numbers.iter().copied().map(wide).collect()
}

fn chosen((_, version): &Pair) -> usize {
    match *version {
        LEFT_OUT => PROVED_LEFT_OUT,
        version => wide(version),
    }
}

impl Carried {
    fn kind(kind: usize, component: Number) -> Carried {
        Carried { kind, c: wide(component), ..Carried::default() }
    }

    fn pair(kind: usize, component: Number, version: Number) -> Carried {
        Carried { v: wide(version), ..Carried::kind(kind, component) }
    }

    /// With the members of the compositions, one after the other.
    fn composed(self, compositions: &[Vec<Pair>]) -> Carried {
        Carried {
            members: compositions.iter().flatten().map(|(member, _)| wide(*member)).collect(),
            chosen: compositions.iter().flatten().map(chosen).collect(),
            ..self
        }
    }

    /// What the plain call carries.
    pub fn of(call: &Call) -> Carried {
        match call {
            Call::AddSpec { component, provides, versions, requires, standard } => Carried {
                set: *provides,
                versions: all_wide(versions),
                required: requires.clone(),
                ..Carried::pair(0, *component, *standard)
            },
            Call::AddMod { component, versions, implementations } => Carried {
                versions: all_wide(versions),
                lengths: all_wide(implementations),
                ..Carried::kind(1, *component)
            },
            Call::AddSys { component, usable, versions, compositions } => Carried {
                usable: all_wide(usable),
                versions: all_wide(versions),
                lengths: compositions.iter().map(Vec::len).collect(),
                ..Carried::kind(2, *component).composed(compositions)
            },
            Call::AddModvar { component, version, requires, implementation } => Carried {
                set: *requires,
                i: wide(*implementation),
                ..Carried::pair(3, *component, *version)
            },
            Call::AddSysvar { component, version, composition } => {
                Carried::pair(4, *component, *version).composed(std::slice::from_ref(composition))
            }
            Call::DelSpec(component) => Carried::kind(5, *component),
            Call::DelMod(component) => Carried::kind(6, *component),
            Call::DelSys(component) => Carried::kind(7, *component),
            Call::DelModvar(component, version) => Carried::pair(8, *component, *version),
            Call::DelSysvar(component, version) => Carried::pair(9, *component, *version),
        }
    }
}
