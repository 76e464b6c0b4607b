//! Tokens, the language of Fig. 2 as document 01 changes it, and commands by names.

/// A name or implementation: the part of the text itself, without quotes.
pub type Name<'a> = &'a [u8];
/// A member of a composition; its version may be left out.
pub type Member<'a> = (Name<'a>, Option<Name<'a>>);
/// A version of a spec with the facilities that it requires.
pub type Requirement<'a> = (Name<'a>, Vec<Name<'a>>);

/// "Names are 1 to 32 letters", and so are implementations.
pub const LONGEST: usize = 32;

/// "A word quoted in Fig. 2, and `parts`, is a keyword and no name"
pub const KEYWORDS: [&str; 28] = [
    "spec",
    "provides",
    "std",
    "requires",
    "all-of",
    "end",
    "mod",
    "impl",
    "sys",
    "use",
    "delspec",
    "delmod",
    "delsys",
    "modvar",
    "sysvar",
    "delmodvar",
    "delsysvar",
    "supplies",
    "needs",
    "choice",
    "standard",
    "undefined",
    "unused",
    "whereused",
    "in",
    "out",
    "quit",
    "parts",
];

/// The text is not of the language: 23.
#[derive(Clone, Copy, Debug, PartialEq, Eq)]
pub struct NotOfTheLanguage;

type Read<T> = Result<T, NotOfTheLanguage>;

/// A token of the language.
#[derive(Clone, Copy, Debug, PartialEq, Eq)]
pub enum Token<'a> {
    /// A keyword.
    Keyword(&'a [u8]),
    /// A name of a component, version or facility.
    Name(Name<'a>),
    /// An implementation, without its quotes.
    Implementation(Name<'a>),
    /// One of `.`, `,`, `;` and `=`.
    Sign(u8),
}

/// A command by names.
#[derive(Clone, Debug, PartialEq, Eq)]
pub enum Command<'a> {
    Spec {
        component: Name<'a>,
        provides: Vec<Name<'a>>,
        versions: Vec<Requirement<'a>>,
        standard: Name<'a>,
    },
    Mod {
        component: Name<'a>,
        versions: Vec<(Name<'a>, Name<'a>)>,
    },
    Sys {
        component: Name<'a>,
        usable: Vec<Name<'a>>,
        compositions: Vec<(Name<'a>, Vec<Member<'a>>)>,
    },
    DelSpec(Name<'a>),
    DelMod(Name<'a>),
    DelSys(Name<'a>),
    Modvar {
        component: Name<'a>,
        version: Name<'a>,
        requires: Vec<Name<'a>>,
        implementation: Name<'a>,
    },
    Sysvar {
        component: Name<'a>,
        version: Name<'a>,
        composition: Vec<Member<'a>>,
    },
    DelModvar(Name<'a>, Name<'a>),
    DelSysvar(Name<'a>, Name<'a>),
    Supplies(Name<'a>),
    Needs(Name<'a>, Name<'a>),
    Choice(Vec<Name<'a>>),
    Standard(Name<'a>),
    Undefined,
    Unused,
    Whereused(Name<'a>),
    Parts(Name<'a>, Name<'a>),
    Out,
}

impl Command<'_> {
    /// The word that begins the command.
    pub fn word(&self) -> &'static str {
        match self {
            Command::Spec { .. } => "spec",
            Command::Mod { .. } => "mod",
            Command::Sys { .. } => "sys",
            Command::DelSpec(_) => "delspec",
            Command::DelMod(_) => "delmod",
            Command::DelSys(_) => "delsys",
            Command::Modvar { .. } => "modvar",
            Command::Sysvar { .. } => "sysvar",
            Command::DelModvar(..) => "delmodvar",
            Command::DelSysvar(..) => "delsysvar",
            Command::Supplies(_) => "supplies",
            Command::Needs(..) => "needs",
            Command::Choice(_) => "choice",
            Command::Standard(_) => "standard",
            Command::Undefined => "undefined",
            Command::Unused => "unused",
            Command::Whereused(_) => "whereused",
            Command::Parts(..) => "parts",
            Command::Out => "out",
        }
    }
}

/// "letters, digits, "-" or "_""
fn in_name(byte: u8) -> bool {
    byte.is_ascii_alphanumeric() || byte == b'-' || byte == b'_'
}

/// "letters, digits, ".", "/", "-", "_""
fn in_implementation(byte: u8) -> bool {
    in_name(byte) || byte == b'.' || byte == b'/'
}

/// "A word quoted in Fig. 2, and `parts`, is a keyword and no name"
pub fn is_keyword(word: &[u8]) -> bool {
    KEYWORDS.iter().any(|keyword| keyword.as_bytes() == word)
}

/// "Names are 1 to 32 letters, digits, "-" or "_", beginning with a letter or digit"
pub fn is_name(word: &[u8]) -> bool {
    (1..=LONGEST).contains(&word.len())
        && word[0].is_ascii_alphanumeric()
        && word.iter().all(|byte| in_name(*byte))
        && !is_keyword(word)
}

/// "an implementation is 1 to 32 letters, digits, ".", "/", "-", "_""; it may
/// read like a keyword.
pub fn is_implementation(word: &[u8]) -> bool {
    (1..=LONGEST).contains(&word.len()) && word.iter().all(|byte| in_implementation(*byte))
}

/// The reader carries the text and its position together.
#[derive(Clone, Debug)]
pub struct Reader<'a> {
    text: &'a [u8],
    position: usize,
}

impl<'a> Reader<'a> {
    /// A reader at the start of the text.
    pub fn new(text: &'a [u8]) -> Self {
        Reader { text, position: 0 }
    }

    /// How much of the text was read.
    pub fn position(&self) -> usize {
        self.position
    }

    fn rest(&self) -> &'a [u8] {
        &self.text[self.position..]
    }

    /// "Spaces, tabs, carriage returns and line feeds may stand between
    /// tokens; a comment runs from "{" to the first "}", and one left open is
    /// not of the language."
    fn skip(&mut self) -> Read<()> {
        while let Some(byte) = self.rest().first() {
            match byte {
                b' ' | b'\t' | b'\r' | b'\n' => self.position += 1,
                b'{' => {
                    let mut rest = self.rest().iter();
                    let end = rest.position(|byte| *byte == b'}').ok_or(NotOfTheLanguage)?;
                    self.position += end + 1;
                }
                _ => break,
            }
        }
        Ok(())
    }

    /// The bytes from here on that are of a kind: "A token is as long as it can be."
    fn run(&mut self, of_kind: fn(u8) -> bool) -> &'a [u8] {
        let rest = self.rest();
        let length = rest.iter().take_while(|byte| of_kind(**byte)).count();
        self.position += length;
        &rest[..length]
    }

    /// The next token, or none at the end of the text.
    pub fn token(&mut self) -> Read<Option<Token<'a>>> {
        self.skip()?;
        let Some(first) = self.rest().first() else {
            return Ok(None);
        };
        match *first {
            sign @ (b'.' | b',' | b';' | b'=') => {
                self.position += 1;
                Ok(Some(Token::Sign(sign)))
            }
            b'"' => self.implementation_token().map(Some),
            byte if in_name(byte) => self.word_token().map(Some),
            _ => Err(NotOfTheLanguage),
        }
    }

    fn word_token(&mut self) -> Read<Token<'a>> {
        let word = self.run(in_name);
        if is_keyword(word) {
            Ok(Token::Keyword(word))
        } else if is_name(word) {
            Ok(Token::Name(word))
        } else {
            Err(NotOfTheLanguage)
        }
    }

    fn implementation_token(&mut self) -> Read<Token<'a>> {
        self.position += 1;
        let word = self.run(in_implementation);
        if self.rest().first() != Some(&b'"') || !is_implementation(word) {
            return Err(NotOfTheLanguage);
        }
        self.position += 1;
        Ok(Token::Implementation(word))
    }

    /// "Each command is read from the rest of the text after the one before."
    /// None at the end of the text or at "quit".
    pub fn command(&mut self) -> Read<Option<Command<'a>>> {
        let word = match self.token()? {
            None => return Ok(None),
            Some(Token::Keyword(word)) => word,
            Some(_) => return Err(NotOfTheLanguage),
        };
        let command = match word {
            b"quit" => return Ok(None),
            b"spec" => self.spec()?,
            b"mod" => self.module()?,
            b"sys" => self.system()?,
            b"modvar" => self.modvar()?,
            b"sysvar" => self.sysvar()?,
            b"choice" => self.choice()?,
            b"undefined" => Command::Undefined,
            b"unused" => Command::Unused,
            b"out" => Command::Out,
            _ => self.of_component(word)?,
        };
        Ok(Some(command))
    }

    /// The commands that a component, or a component with a version, follows.
    fn of_component(&mut self, word: &[u8]) -> Read<Command<'a>> {
        let make = match word {
            b"delspec" => Command::DelSpec,
            b"delmod" => Command::DelMod,
            b"delsys" => Command::DelSys,
            b"supplies" => Command::Supplies,
            b"standard" => Command::Standard,
            b"whereused" => Command::Whereused,
            _ => return self.of_pair(word),
        };
        Ok(make(self.name()?))
    }

    fn of_pair(&mut self, word: &[u8]) -> Read<Command<'a>> {
        let make = match word {
            b"delmodvar" => Command::DelModvar,
            b"delsysvar" => Command::DelSysvar,
            b"needs" => Command::Needs,
            b"parts" => Command::Parts,
            _ => return Err(NotOfTheLanguage),
        };
        let (component, version) = self.pair()?;
        Ok(make(component, version))
    }

    /// add-spec = "spec" cn "provides" [facs] ";" version {";" version} "end".
    fn spec(&mut self) -> Read<Command<'a>> {
        let component = self.name()?;
        self.keyword(b"provides")?;
        let provides = if self.takes(Token::Sign(b';'))? {
            Vec::new()
        } else {
            let facilities = self.names()?;
            self.sign(b';')?;
            facilities
        };
        let mut standards = Vec::new();
        let versions = self.parted(b';', |reader| {
            let standard = reader.takes(Token::Keyword(b"std"))?;
            let version = reader.name()?;
            if standard {
                standards.push(version);
            }
            Ok((version, reader.requires()?))
        })?;
        self.keyword(b"end")?;
        // "Exactly one version of a spec carries "std"."
        let [standard] = standards[..] else {
            return Err(NotOfTheLanguage);
        };
        Ok(Command::Spec { component, provides, versions, standard })
    }

    /// add-mod = "mod" cn ";" vn "impl" imp {";" vn "impl" imp} "end".
    fn module(&mut self) -> Read<Command<'a>> {
        let component = self.name()?;
        self.sign(b';')?;
        let versions = self.parted(b';', |reader| {
            let version = reader.name()?;
            Ok((version, reader.implementation()?))
        })?;
        self.keyword(b"end")?;
        Ok(Command::Mod { component, versions })
    }

    /// add-sys = "sys" cn "use" cns ";" vn "=" compos {";" vn "=" compos} "end".
    fn system(&mut self) -> Read<Command<'a>> {
        let component = self.name()?;
        self.keyword(b"use")?;
        let usable = self.names()?;
        self.sign(b';')?;
        let compositions = self.parted(b';', |reader| {
            let version = reader.name()?;
            Ok((version, reader.composition()?))
        })?;
        self.keyword(b"end")?;
        Ok(Command::Sys { component, usable, compositions })
    }

    /// add-modvar = "modvar" cn"."vn ["requires" facs] "impl" imp.
    fn modvar(&mut self) -> Read<Command<'a>> {
        let (component, version) = self.pair()?;
        Ok(Command::Modvar {
            component,
            version,
            requires: self.requires()?,
            implementation: self.implementation()?,
        })
    }

    /// add-sysvar = "sysvar" cn"."vn "=" compos "end".
    fn sysvar(&mut self) -> Read<Command<'a>> {
        let (component, version) = self.pair()?;
        let composition = self.composition()?;
        self.keyword(b"end")?;
        Ok(Command::Sysvar { component, version, composition })
    }

    /// "choice" [facs] "end".
    fn choice(&mut self) -> Read<Command<'a>> {
        if self.takes(Token::Keyword(b"end"))? {
            return Ok(Command::Choice(Vec::new()));
        }
        let wanted = self.names()?;
        self.keyword(b"end")?;
        Ok(Command::Choice(wanted))
    }

    /// ""requires", where it stands, is followed by one or more facilities."
    fn requires(&mut self) -> Read<Vec<Name<'a>>> {
        if self.takes(Token::Keyword(b"requires"))? {
            self.names()
        } else {
            Ok(Vec::new())
        }
    }

    /// "=" compos; a member's ".V" may be absent.
    fn composition(&mut self) -> Read<Vec<Member<'a>>> {
        self.sign(b'=')?;
        self.parted(b',', |reader| {
            let member = reader.name()?;
            let version =
                if reader.takes(Token::Sign(b'.'))? { Some(reader.name()?) } else { None };
            Ok((member, version))
        })
    }

    /// "impl" imp.
    fn implementation(&mut self) -> Read<Name<'a>> {
        self.keyword(b"impl")?;
        match self.token()? {
            Some(Token::Implementation(word)) => Ok(word),
            _ => Err(NotOfTheLanguage),
        }
    }

    /// Names parted by commas.
    fn names(&mut self) -> Read<Vec<Name<'a>>> {
        self.parted(b',', Self::name)
    }

    /// One or more items parted by a sign.
    fn parted<T>(&mut self, sign: u8, mut item: impl FnMut(&mut Self) -> Read<T>) -> Read<Vec<T>> {
        let mut items = vec![item(self)?];
        while self.takes(Token::Sign(sign))? {
            items.push(item(self)?);
        }
        Ok(items)
    }

    /// cn"."vn
    fn pair(&mut self) -> Read<(Name<'a>, Name<'a>)> {
        let component = self.name()?;
        self.sign(b'.')?;
        Ok((component, self.name()?))
    }

    fn name(&mut self) -> Read<Name<'a>> {
        match self.token()? {
            Some(Token::Name(name)) => Ok(name),
            _ => Err(NotOfTheLanguage),
        }
    }

    fn keyword(&mut self, word: &'static [u8]) -> Read<()> {
        self.expect(Token::Keyword(word))
    }

    fn sign(&mut self, sign: u8) -> Read<()> {
        self.expect(Token::Sign(sign))
    }

    fn expect(&mut self, token: Token<'_>) -> Read<()> {
        if self.takes(token)? {
            Ok(())
        } else {
            Err(NotOfTheLanguage)
        }
    }

    /// Takes the next token if it is this one.
    fn takes(&mut self, token: Token<'_>) -> Read<bool> {
        let before = self.position;
        let found = self.token()? == Some(token);
        if !found {
            self.position = before;
        }
        Ok(found)
    }
}
