//! The command line.

use std::borrow::Cow;
use std::ffi::OsString;

/// A command that is given its plan on standard input.
#[derive(Clone, Copy, Debug, PartialEq, Eq)]
pub enum Command {
    Run,
    Explain,
    /// With so many workers.
    Steps(usize),
    Graph,
    Picture,
}

#[derive(Debug, PartialEq, Eq)]
pub enum Request {
    Help(String),
    Do(Command),
    /// With the plans in these files.
    Tally(Vec<OsString>),
}

/// A command as the help tells it.
struct Entry {
    name: &'static str,
    usage: &'static str,
    short: &'static str,
    long: &'static str,
}

/// A plan has no more jobs, so more workers would have nothing to do.
const MOST_WORKERS: usize = 128;

const ENTRIES: [Entry; 6] = [
    Entry {
        name: "run",
        usage: "gaugeplan run < PLAN",
        short: "the answer of gaugebatch, with a status for scripts",
        long: "Writes what gaugebatch writes, byte for byte.",
    },
    Entry {
        name: "explain",
        usage: "gaugeplan explain < PLAN",
        short: "the plan's fault, or each of its steps, in words",
        long: "Says in words what is wrong with the plan and how to mend it; or, of a sound plan, what each step did, which guesses\n\
               fell and why, and how jobs and cells stand at the end.",
    },
    Entry {
        name: "steps",
        usage: "gaugeplan steps WORKERS < PLAN",
        short: "the plan with steps for so many workers",
        long: "Writes the plan's cells, jobs and guess switch with steps for WORKERS workers, 1 to 128. Steps that the plan has are\n\
               left out, and its line `step job` may be missing. Every run takes the same time; a free worker takes what the\n\
               engine's chooser names, and drops a guess that has fallen. No step is refused, and all jobs are settled at the end.",
    },
    Entry {
        name: "graph",
        usage: "gaugeplan graph < PLAN",
        short: "which jobs wait for which, as DOT for Graphviz",
        long: "Writes a graph of the jobs for Graphviz, for instance `gaugeplan graph < PLAN | dot -Tsvg > graph.svg`. Arrows that a\n\
               chain of others implies are left out.",
    },
    Entry {
        name: "picture",
        usage: "gaugeplan picture < PLAN",
        short: "the run of the plan as a picture, in SVG",
        long: "Writes a picture of the run: a row for each job, a column for each step, with own runs, guesses kept and guesses lost.",
    },
    Entry {
        name: "tally",
        usage: "gaugeplan tally PLAN...",
        short: "what became of the guesses of many plans, in a table",
        long: "Writes a line for each plan, in the order in which they are named: how many jobs it has, and how many guesses were\n\
               started, kept and thrown away; the rest are still out or stored. The line under them is the total of all, and the last\n\
               says how many thousandths of the guesses started were kept, rounded down. Where a plan cannot be read or is at fault\n\
               there is no table, and standard error says what is wrong with each such plan.",
    },
];

const STATUS: &str = "\
The status is 0 for sound plans, 1 where one is at fault, and 2 where the arguments are wrong, or reading or writing failed,
which a line on standard error tells.
";

fn help() -> String {
    let mut text = "usage: gaugeplan COMMAND ...\n\n".to_owned();
    for Entry { usage, short, .. } in &ENTRIES {
        text += &format!("  {usage:34} {short}\n");
    }
    text += "\ntally reads the files that it is given; all others read a plan from standard input.\n";
    text + STATUS + "\n`gaugeplan COMMAND --help` says more of a command; docs/GAUGEPLAN.md has examples.\n"
}

fn help_of(entry: &Entry) -> String {
    let input = if entry.usage.ends_with("< PLAN") {
        "The plan is read from standard input."
    } else {
        "Each PLAN is the name of a file. Standard input is not read."
    };
    format!("usage: {}\n\n{}\n\n{input}\n{STATUS}", entry.usage, entry.long)
}

fn is_help(word: &str) -> bool {
    word == "--help" || word == "-h"
}

/// A number of workers is written as numbers are in plans: digits, and no leading zero.
fn workers(word: &str) -> Result<usize, String> {
    let number = (1..=MOST_WORKERS).find(|number| number.to_string() == word);
    number.ok_or_else(|| format!("the number of workers is 1 to {MOST_WORKERS}, and not `{}`", word.escape_default()))
}

/// The files named. A word that begins with `-` would be an option, and there is none.
fn files(words: &[OsString]) -> Result<Request, String> {
    if words.is_empty() {
        return Err("no plan is named: tally reads files, and not standard input".to_owned());
    }
    let option = words.iter().map(|word| word.to_string_lossy()).find(|word| word.starts_with('-'));
    match option.map(|word| word.escape_default().to_string()) {
        Some(word) => Err(format!("`{word}` is no argument of tally; a file of that name is given as `./{word}`")),
        None => Ok(Request::Tally(words.to_vec())),
    }
}

/// What is asked for, or what is wrong with the arguments.
pub fn read(words: &[OsString]) -> Result<Request, String> {
    let (name, rest) = words.split_first().ok_or_else(|| format!("a command is missing\n{}", help()))?;
    let name = &*name.to_string_lossy();
    let arguments: Vec<Cow<str>> = rest.iter().map(|word| word.to_string_lossy()).collect();
    let arguments: Vec<&str> = arguments.iter().map(|word| &**word).collect();
    if is_help(name) && arguments.is_empty() {
        return Ok(Request::Help(help()));
    }
    let Some(entry) = ENTRIES.iter().find(|entry| entry.name == name) else {
        return Err(format!("there is no command `{}`\n{}", name.escape_default(), help()));
    };
    if matches!(*arguments, [word] if is_help(word)) {
        return Ok(Request::Help(help_of(entry)));
    }
    let request = match (name, arguments.as_slice()) {
        ("run", []) => Ok(Request::Do(Command::Run)),
        ("explain", []) => Ok(Request::Do(Command::Explain)),
        ("graph", []) => Ok(Request::Do(Command::Graph)),
        ("picture", []) => Ok(Request::Do(Command::Picture)),
        ("steps", [word]) => workers(word).map(|workers| Request::Do(Command::Steps(workers))),
        ("steps", []) => Err("the number of workers is missing".to_owned()),
        ("tally", _) => files(rest),
        (_, [.., word]) => Err(format!("`{}` is no argument of {name}", word.escape_default())),
        (_, []) => Err(format!("{name} is not understood")),
    };
    request.map_err(|message| format!("{message}\nusage: {}", entry.usage))
}
