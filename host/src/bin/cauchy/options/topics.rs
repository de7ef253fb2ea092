//! Topics of the help that are of no command alone.

/// A topic.
pub struct Topic {
    pub name: &'static str,
    /// In one sentence, without its full stop.
    pub purpose: &'static str,
    /// As the text of a command.
    pub text: &'static str,
}

pub static TOPICS: &[Topic] = &[
    Topic {
        name: "conventions",
        purpose: "How a reading rescales the weights",
        text: include_str!("topics/conventions.txt"),
    },
    Topic {
        name: "files",
        purpose: "The forms of the files that are read and written",
        text: include_str!("topics/files.txt"),
    },
    Topic {
        name: "store",
        purpose: "What a store is, and what is in its folder",
        text: include_str!("topics/store.txt"),
    },
    Topic {
        name: "words",
        purpose: "How options, operands and standard input are given",
        text: include_str!("topics/words.txt"),
    },
    Topic { name: "exit", purpose: "The exit status", text: include_str!("topics/exit.txt") },
    Topic {
        name: "examples",
        purpose: "A run, and a store from its mesh to the hand-over",
        text: include_str!("topics/examples.txt"),
    },
];

/// The topic of this name.
pub fn topic(name: &str) -> Option<&'static Topic> {
    TOPICS.iter().find(|topic| topic.name == name)
}
