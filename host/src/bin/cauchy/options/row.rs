//! The rows of the table of commands: what they hold.
use super::given::Given;
use crate::failure::Result;
use crate::options::Command;

/// A command: what it is for, and the ways to give it.
pub struct CommandRow {
    pub name: &'static str,
    pub group: Group,
    /// In one sentence, without its full stop.
    pub purpose: &'static str,
    /// Its forms, told apart by their number of operands.
    pub forms: &'static [Form],
    /// More on it: paragraphs with an empty line between them; lines that begin with a blank stand as they are.
    pub text: &'static str,
    /// Why it does not take some options of others, where there is more to say than that.
    pub reasons: &'static [Reason],
}

/// One way to give a command.
pub struct Form {
    pub operands: &'static [&'static Operand],
    pub conventions: Conventions,
    /// The options that it cannot do without.
    pub needs: &'static [&'static OptionRow],
    /// The options that it may have, besides a convention's.
    pub options: &'static [&'static OptionRow],
    /// Why it does not take some options of the command's other forms.
    pub reasons: &'static [Reason],
    /// Makes what is asked of what is given.
    pub build: fn(&mut Given) -> Result<Command>,
}

/// How many conventions a form takes.
#[derive(Clone, Copy, Debug, Eq, Ord, PartialEq, PartialOrd)]
pub enum Conventions {
    None,
    One,
    Several,
}

/// A word that is given by its position.
pub struct Operand {
    pub name: &'static str,
    pub kind: Kind,
    pub is_optional: bool,
    /// Whether it may come several times; only the last one of a form does.
    pub is_repeated: bool,
    pub meaning: &'static str,
}

/// A word that is given by its name, `--name` or `--name=value`.
pub struct OptionRow {
    pub name: &'static str,
    /// The value's name and kind, where it has one.
    pub value: Option<(&'static str, Kind)>,
    pub meaning: &'static str,
}

/// What a word stands for, for those who complete it.
#[derive(Clone, Copy, Debug, PartialEq)]
pub enum Kind {
    File,
    Folder,
    /// A file or a folder.
    Path,
    Number,
    /// One of these words.
    Words(&'static [&'static str]),
    /// A command or a topic.
    Subject,
    /// A reading and its words.
    Reading,
}

/// Why a command or one of its forms does not take some options.
pub struct Reason {
    pub options: &'static [&'static str],
    pub why: &'static str,
}

/// What commands are for, in the order in which they are told.
#[derive(Clone, Copy, Debug, PartialEq)]
pub enum Group {
    Files,
    Store,
    Readings,
    History,
    Exchange,
    Itself,
}

impl Group {
    pub const ALL: [Group; 6] =
        [Group::Files, Group::Store, Group::Readings, Group::History, Group::Exchange, Group::Itself];

    pub fn title(self) -> &'static str {
        match self {
            Group::Files => "From files, in one run",
            Group::Store => "A store that lasts, in a folder",
            Group::Readings => "Readings of a store",
            Group::History => "The history of a store",
            Group::Exchange => "Exchange",
            Group::Itself => "The program itself",
        }
    }
}

impl Form {
    /// A form of these operands, without options.
    pub const fn of(operands: &'static [&'static Operand], build: fn(&mut Given) -> Result<Command>) -> Form {
        Form { operands, conventions: Conventions::None, needs: &[], options: &[], reasons: &[], build }
    }

    pub const fn by(self, conventions: Conventions) -> Form {
        Form { conventions, ..self }
    }

    pub const fn needs(self, needs: &'static [&'static OptionRow]) -> Form {
        Form { needs, ..self }
    }

    pub const fn options(self, options: &'static [&'static OptionRow]) -> Form {
        Form { options, ..self }
    }

    pub const fn reasons(self, reasons: &'static [Reason]) -> Form {
        Form { reasons, ..self }
    }

    /// How many operands it takes: the least and the most.
    pub fn counts(&self) -> (usize, usize) {
        let most = if self.is_open() { usize::MAX } else { self.operands.len() };
        (self.operands.iter().filter(|operand| !operand.is_optional).count(), most)
    }

    /// Whether its last operand may come several times.
    pub fn is_open(&self) -> bool {
        self.operands.last().is_some_and(|operand| operand.is_repeated)
    }

    /// The options that it takes in all: those of a convention, those that it needs, those that it may have.
    pub fn all_options(&self) -> impl Iterator<Item = &'static OptionRow> {
        let conventions = if self.conventions == Conventions::None { &[] } else { super::rows::CONVENTIONS };
        conventions.iter().chain(self.needs).chain(self.options).copied()
    }

    /// Its words after the command: `DIR PLACE WEIGHT`, `LINES --snapshot FILE [--overwrite]`.
    pub fn usage(&self) -> String {
        let operand = |operand: &&Operand| match (operand.is_optional, operand.is_repeated) {
            (true, _) => format!("[{}]", operand.name),
            (false, true) => format!("{}..", operand.name),
            (false, false) => operand.name.to_string(),
        };
        let mut words: Vec<String> = self.operands.iter().map(operand).collect();
        match self.conventions {
            Conventions::None => {}
            Conventions::One => words.push("CONVENTION".to_string()),
            Conventions::Several => words.push("CONVENTION..".to_string()),
        }
        words.extend(self.needs.iter().map(|option| option.usage()));
        match self.options.len() {
            0..=3 => words.extend(self.options.iter().map(|option| format!("[{}]", option.usage()))),
            _ => words.push("[OPTIONS]".to_string()),
        }
        words.join(" ")
    }
}

impl CommandRow {
    /// The options of all its forms, each name once.
    pub fn all_options(&self) -> Vec<&'static OptionRow> {
        let mut options: Vec<&'static OptionRow> = Vec::new();
        for option in self.forms.iter().flat_map(Form::all_options) {
            if options.iter().all(|other| other.name != option.name) {
                options.push(option);
            }
        }
        options
    }
}

impl OptionRow {
    /// `--name`, or `--name VALUE`.
    pub fn usage(&self) -> String {
        match self.value {
            None => self.name.to_string(),
            Some((value, _)) => format!("{} {value}", self.name),
        }
    }
}
