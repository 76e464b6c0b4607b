//! Session texts and calls made from a seed.

mod growing;
mod plan;
mod raw;
mod wrong;

use crate::book::{Book, Number};
use crate::language::{is_name, Reader, KEYWORDS, LONGEST};
use crate::random::Random;
use crate::session::{Session, Table};

/// The kinds of texts.
#[derive(Clone, Copy, Debug, PartialEq, Eq)]
pub enum Kind {
    /// Mostly accepted commands, systems of several levels.
    Growing,
    /// Accepted and refused commands of all sorts.
    Mixed,
    /// Tables filling up to 24.
    Full,
    /// A good session with some bytes changed, dropped or doubled.
    Damaged,
    /// A text near 65,536 bytes.
    Long,
    /// Random bytes, mostly of the language's alphabet.
    Bytes,
    /// Raw calls of the ten commands, a line each.
    Calls,
}

impl Kind {
    /// All kinds with their words.
    pub const ALL: [(&'static str, Kind); 7] = [
        ("growing", Kind::Growing),
        ("mixed", Kind::Mixed),
        ("full", Kind::Full),
        ("damaged", Kind::Damaged),
        ("long", Kind::Long),
        ("bytes", Kind::Bytes),
        ("calls", Kind::Calls),
    ];

    /// The kind of a word.
    pub fn read(word: &str) -> Option<Kind> {
        let mut kinds = Kind::ALL.iter();
        kinds.find(|(name, _)| *name == word).map(|(_, kind)| *kind)
    }
}

/// The text of a kind and seed. The count is one of commands, for `long` and
/// `bytes` one of bytes.
pub fn generate(kind: Kind, seed: u64, count: Option<usize>) -> Vec<u8> {
    let mut generator = Generator::new(seed);
    match kind {
        Kind::Growing => generator.growing(count.unwrap_or(80)),
        Kind::Mixed => generator.mixed(count.unwrap_or(120)),
        Kind::Full => generator.full(count.unwrap_or(60)),
        Kind::Damaged => generator.damaged(count.unwrap_or(40)),
        Kind::Long => generator.long(count.unwrap_or(65_536)),
        Kind::Bytes => generator.bytes(count.unwrap_or(400)),
        Kind::Calls => generator.calls(count.unwrap_or(150)),
    }
    generator.text
}

/// A text as far as it is made, and the session that it reaches.
struct Generator {
    random: Random,
    session: Session,
    text: Vec<u8>,
    /// Whether white space and comments stand at random.
    loose: bool,
    /// How many of a hundred names are new ones.
    fresh: usize,
    /// How many of a hundred queries are `out`.
    outs: usize,
    facilities: Vec<String>,
    versions: Vec<String>,
    implementations: Vec<String>,
}

/// Whether two tokens would run into one another.
fn runs_on(before: Option<u8>, after: Option<u8>) -> bool {
    let in_word = |byte: Option<u8>| {
        byte.is_some_and(|b| b.is_ascii_alphanumeric() || b == b'-' || b == b'_')
    };
    in_word(before) && in_word(after)
}

impl Generator {
    fn new(seed: u64) -> Self {
        let mut generator = Generator {
            random: Random::new(seed),
            session: Session::default(),
            text: Vec::new(),
            loose: seed % 2 == 1,
            fresh: 3,
            outs: 8,
            facilities: Vec::new(),
            versions: Vec::new(),
            implementations: Vec::new(),
        };
        let count = generator.random.between(6, 24);
        generator.facilities = generator.new_names(count);
        let count = generator.random.between(9, 14);
        generator.versions = generator.new_names(count);
        let count = generator.random.between(4, 20);
        generator.implementations = (0..count).map(|_| generator.new_implementation()).collect();
        generator
    }

    /// A valid name, often short, sometimes an extension of another one.
    fn new_name(&mut self) -> String {
        const FIRST: &[u8] = b"abcdefghknprtvwxyzABZ0129";
        const NEXT: &[u8] = b"abekmnostuz0127-_-_A";
        loop {
            let length = match self.random.below(20) {
                0 => LONGEST,
                1..=3 => self.random.between(6, 12),
                _ => self.random.between(1, 4),
            };
            let mut name = String::new();
            name.push(self.random.pick(FIRST).map_or('a', char::from));
            if self.random.chance(10) {
                let word = self.random.pick(&KEYWORDS).unwrap_or("end");
                name = word.to_string();
            }
            while name.len() < length {
                name.push(self.random.pick(NEXT).map_or('a', char::from));
            }
            if is_name(name.as_bytes()) {
                return name;
            }
        }
    }

    /// Different names.
    fn new_names(&mut self, count: usize) -> Vec<String> {
        let mut names: Vec<String> = Vec::new();
        while names.len() < count {
            let name = self.new_name();
            if !names.contains(&name) {
                names.push(name);
            }
        }
        names
    }

    /// A valid implementation in its quotes, sometimes reading like a keyword.
    fn new_implementation(&mut self) -> String {
        const BYTES: &[u8] = b"abcdxyz019./-_/.Q";
        if self.random.chance(5) {
            let word = self.random.pick(&KEYWORDS).unwrap_or("end");
            return format!("\"{word}\"");
        }
        let length = match self.random.below(10) {
            0 => LONGEST,
            _ => self.random.between(1, 9),
        };
        let word = (0..length).map(|_| self.random.pick(BYTES).map_or('a', char::from));
        format!("\"{}\"", word.collect::<String>())
    }

    /// A command is given as its tokens parted by spaces.
    fn write(&mut self, command: &str) {
        for token in command.split_ascii_whitespace() {
            let after = token.bytes().next();
            let before = self.text.last().copied();
            let needed = runs_on(before, after);
            if self.loose {
                self.write_loose_space(needed);
            } else {
                let tight = matches!(token, "," | ";" | ".") || before == Some(b'.');
                let start = matches!(before, None | Some(b'\n'));
                if !start && (needed || !tight) {
                    self.text.push(b' ');
                }
            }
            self.text.extend(token.bytes());
        }
        self.text.push(b'\n');
    }

    fn write_loose_space(&mut self, needed: bool) {
        const SPACES: [&str; 9] = [" ", " ", " ", "\t", "\n", "\r\n", "  ", "{}", "{ \"end; {}"];
        if needed || self.random.chance(40) {
            let space = self.random.pick(&SPACES).unwrap_or(" ");
            self.text.extend(space.bytes());
        }
    }

    /// Carries out the command and writes it, unless it is not of the language.
    fn emit(&mut self, command: &str) {
        if let Ok(Some(read)) = Reader::new(command.as_bytes()).command() {
            let _ = self.session.perform(&read);
            self.write(command);
        }
    }

    /// What the answer to the command would be.
    fn would(&self, command: &str) -> Number {
        match Reader::new(command.as_bytes()).command() {
            Ok(Some(command)) => self.session.clone().perform(&command).err().unwrap_or(0),
            _ => 23,
        }
    }

    /// Writes the command if it is accepted; a few others too.
    fn emit_accepted(&mut self, command: &str) -> bool {
        let accepted = self.would(command) == 0;
        if accepted || self.random.chance(4) {
            self.emit(command);
        }
        accepted
    }

    fn book(&self) -> &Book {
        &self.session.book
    }

    fn name_in(table: &Table, number: Number) -> String {
        String::from_utf8_lossy(table.name(number)).into_owned()
    }

    fn component_name(&self, number: Number) -> String {
        Self::name_in(&self.session.tables.components, number)
    }

    fn version_name(&self, number: Number) -> String {
        Self::name_in(&self.session.tables.versions, number)
    }

    fn facility_name(&self, number: Number) -> String {
        Self::name_in(&self.session.tables.facilities, number)
    }

    fn growing(&mut self, count: usize) {
        for _ in 0..count {
            self.grow();
        }
        self.emit("out");
    }

    fn mixed(&mut self, count: usize) {
        self.fresh = 6;
        for step in 0..count {
            // Refusals of every sort want a book that holds something.
            if step < count / 4 || self.random.chance(45) {
                self.grow();
            } else {
                self.go_wrong();
            }
        }
        self.emit("out");
        match self.random.below(10) {
            0..=2 => self.write_rubbish(),
            3 => self.write("quit spec"),
            _ => {}
        }
    }

    /// Fills some of the tables, then goes on.
    fn full(&mut self, count: usize) {
        self.loose = false;
        self.growing(count / 2);
        let tables = self.random.between(1, 15);
        self.fill_components(tables & 1 == 1);
        if tables & 2 == 2 {
            self.fill_names();
        }
        if tables & 4 == 4 {
            self.fill_implementations();
        }
        self.fresh = 25;
        for _ in 0..count {
            if self.random.chance(50) {
                self.grow();
            } else {
                self.go_wrong();
            }
        }
        self.emit("out");
    }

    fn damaged(&mut self, count: usize) {
        if self.random.chance(50) {
            self.growing(count);
        } else {
            self.mixed(count);
        }
        for _ in 0..self.random.between(1, 4) {
            let place = self.random.below(self.text.len());
            match self.random.below(3) {
                0 => self.text[place] = self.byte(),
                1 => {
                    self.text.remove(place);
                }
                _ => self.text.insert(place, self.text[place]),
            }
        }
    }

    /// A text of about so many bytes: some exactly, some one more or less.
    fn long(&mut self, bytes: usize) {
        self.loose = false;
        self.outs = self.random.pick(&[0, 0, 1, 1, 30]).unwrap_or(0);
        while self.text.len() + 4_000 < bytes {
            if self.random.chance(60) {
                self.grow();
            } else {
                self.go_wrong();
            }
        }
        if self.random.chance(50) {
            self.emit("out");
        }
        let length = match self.random.below(6) {
            0 => bytes.saturating_add(1),
            1 => bytes.saturating_sub(1),
            2 => bytes.saturating_sub(self.random.below(3_000)),
            _ => bytes,
        };
        let pad = length.saturating_sub(self.text.len());
        match pad {
            0..=2 => self.text.extend(vec![b' '; pad]),
            _ => {
                self.text.push(b'{');
                self.text.extend(vec![b'.'; pad - 2]);
                self.text.push(b'}');
            }
        }
    }

    /// A byte, mostly of the language's alphabet.
    fn byte(&mut self) -> u8 {
        const ALPHABET: &[u8] = b"abcdefghijklmnopqrstuvwxyz0123456789-_.,;=\"{} \t\r\n/AZ";
        match self.random.below(10) {
            0 => self.random.bits() as u8,
            _ => self.random.pick(ALPHABET).unwrap_or(b' '),
        }
    }

    /// Half of the texts begin with commands of the language.
    fn bytes(&mut self, count: usize) {
        if self.random.chance(50) {
            for _ in 0..self.random.between(1, 6) {
                self.grow();
            }
        }
        while self.text.len() < count {
            match self.random.below(6) {
                0 => {
                    let byte = self.byte();
                    self.text.push(byte);
                }
                1..=2 => self.write_loose_space(true),
                3 => {
                    let sign = self.random.pick(b".,;=").unwrap_or(b';');
                    self.text.push(sign);
                }
                4 => {
                    let word = self.random.pick(&KEYWORDS).unwrap_or("end");
                    self.text.extend(word.bytes());
                    self.text.push(b' ');
                }
                _ => {
                    let name = self.new_name();
                    self.text.extend(name.bytes());
                }
            }
        }
        self.text.truncate(count);
    }
}
