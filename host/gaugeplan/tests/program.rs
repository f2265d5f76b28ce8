//! The built program: its statuses, and what it does where reading or writing fails.

use std::ffi::OsStr;
use std::fs::File;
use std::io::Write;
use std::os::unix::ffi::OsStrExt;
use std::path::{Path, PathBuf};
use std::process::{Command, Output, Stdio};

/// Those that read a plan from standard input.
const COMMANDS: [&[&str]; 5] = [&["run"], &["explain"], &["steps", "2"], &["graph"], &["picture"]];

fn program(words: &[&str]) -> Command {
    let mut command = Command::new(env!("CARGO_BIN_EXE_gaugeplan"));
    command.args(words);
    command
}

fn fed(words: &[&str], plan: &[u8]) -> Output {
    let mut child =
        program(words).stdin(Stdio::piped()).stdout(Stdio::piped()).stderr(Stdio::piped()).spawn().expect("it starts");
    // A program that reads nothing closes the pipe.
    let _ = child.stdin.take().expect("a pipe").write_all(plan);
    child.wait_with_output().expect("it ends")
}

fn examples() -> PathBuf {
    Path::new(env!("CARGO_MANIFEST_DIR")).join("../../examples")
}

fn example(name: &str) -> Vec<u8> {
    std::fs::read(examples().join(name)).expect("an example")
}

/// The same by a shell, which can close descriptors: `redirected` follows the command.
fn shell(words: &[&str], redirected: &str) -> Output {
    let line = format!("exec \"$0\" \"$@\" {redirected}");
    Command::new("sh").args(["-c", &line, env!("CARGO_BIN_EXE_gaugeplan")]).args(words).output().expect("it starts")
}

#[test]
fn run_is_what_gaugebatch_writes() {
    for name in ["monday", "thursday", "morning", "worked"] {
        let output = fed(&["run"], &example(&format!("{name}.plan")));
        assert_eq!((output.status.code(), output.stdout), (Some(0), example(&format!("{name}.answer"))));
    }
    let output = fed(&["run"], b"cell value\n");
    assert_eq!((output.status.code(), output.stdout.as_slice()), (Some(1), b"fault line\n21 2\n".as_slice()));
}

#[test]
fn a_faulty_plan_gives_status_1() {
    for words in COMMANDS {
        let output = fed(words, b"cell value\n0 007\n");
        let (out, err) = (String::from_utf8_lossy(&output.stdout), String::from_utf8_lossy(&output.stderr));
        assert_eq!(output.status.code(), Some(1), "{words:?}");
        match words {
            ["run"] => assert_eq!((&*out, &*err), ("fault line\n21 2\n", "")),
            ["explain"] => assert!(out.starts_with("Fault 21 on line 2: ") && err.is_empty(), "{out}{err}"),
            _ => assert!(out.is_empty() && err.starts_with("fault line\n21 2\n\nFault 21 on line 2: "), "{out}{err}"),
        }
    }
}

#[test]
fn wrong_arguments_are_refused_unread() {
    let wrong: [&[&str]; 16] = [
        &[],
        &["walk"],
        &["run", "x"],
        &["explain", "--all"],
        &["steps"],
        &["steps", "0"],
        &["steps", "129"],
        &["steps", "+2"],
        &["steps", "02"],
        &["steps", "2", "2"],
        &["--help", "run"],
        &["graph", "--help", "x"],
        &["tally"],
        &["tally", "-"],
        &["tally", "--all"],
        &["tally", "x", "--help"],
    ];
    for words in wrong {
        let output = shell(words, "<&-");
        let message = String::from_utf8_lossy(&output.stderr);
        assert_eq!(output.status.code(), Some(2), "{words:?}");
        assert!(output.stdout.is_empty() && message.contains("\nusage: gaugeplan "), "{words:?}: {message}");
    }
}

#[test]
fn help_is_given_unread() {
    let mut all: Vec<Vec<&str>> = vec![vec!["--help"], vec!["-h"]];
    all.extend(["run", "explain", "steps", "graph", "picture", "tally"].map(|name| vec![name, "--help"]));
    for words in all {
        let output = shell(&words, "<&-");
        assert_eq!(output.status.code(), Some(0), "{words:?}");
        assert!(output.stdout.starts_with(b"usage: gaugeplan ") && output.stderr.is_empty());
        assert_eq!(shell(&words, "<&- >/dev/full").status.code(), Some(2), "{words:?}");
    }
}

#[test]
fn failures_of_reading_and_writing_are_told() {
    let plan = examples().join("monday.plan");
    let plan = plan.display();
    let cases = [
        ("<&-".to_owned(), "reading standard input failed"),
        ("</".to_owned(), "reading standard input failed"),
        (format!("<'{plan}' >&-"), "writing standard output failed"),
        (format!("<'{plan}' >/dev/full"), "writing standard output failed"),
    ];
    for words in COMMANDS {
        for (redirected, message) in &cases {
            let output = shell(words, redirected);
            let told = String::from_utf8_lossy(&output.stderr);
            assert_eq!(output.status.code(), Some(2), "{words:?} {redirected}");
            assert!(told.starts_with(&format!("gaugeplan: {message}: ")) && told.lines().count() == 1, "{told}");
            assert!(output.stdout.is_empty());
        }
        assert_eq!(shell(words, &format!("<'{plan}' >&- 2>&-")).status.code(), Some(2));
    }
}

#[test]
fn a_pipe_that_nobody_reads_is_told() {
    for words in COMMANDS {
        let mut child =
            program(words).stdin(Stdio::piped()).stdout(Stdio::piped()).stderr(Stdio::piped()).spawn().expect("it starts");
        drop(child.stdout.take());
        child.stdin.take().expect("a pipe").write_all(&example("monday.plan")).expect("it reads");
        let output = child.wait_with_output().expect("it ends");
        assert_eq!(output.status.code(), Some(2), "{words:?}");
        assert!(output.stderr.starts_with(b"gaugeplan: writing standard output failed: "));
    }
}

#[test]
fn a_plan_without_end_is_too_long() {
    let zeros = || File::open("/dev/zero").expect("zeros");
    let output = program(&["run"]).stdin(zeros()).output().expect("it ends");
    assert_eq!((output.status.code(), output.stdout.as_slice()), (Some(1), b"fault line\n22 0\n".as_slice()));
    let output = program(&["explain"]).stdin(zeros()).output().expect("it ends");
    assert_eq!(output.status.code(), Some(1));
    assert!(String::from_utf8_lossy(&output.stdout).contains("The plan has more than 65,536 bytes"));
}

#[test]
fn any_bytes_get_a_status() {
    // A fixed generator: plans with a few bytes changed, taken out or put in.
    let mut state = 7_u64;
    let mut next = |below: usize| {
        state = state.wrapping_mul(6_364_136_223_846_793_005).wrapping_add(1_442_695_040_888_963_407);
        (state >> 33) as usize % below
    };
    let plan = example("morning.plan");
    for round in 0..60 {
        let mut text = plan.clone();
        for _ in 0..=next(3) {
            let place = next(text.len());
            match next(3) {
                0 => text[place] = next(256) as u8,
                1 => drop(text.remove(place)),
                _ => text.insert(place, b"0123456789 -\n\r\tx"[next(16)]),
            }
        }
        for words in COMMANDS {
            let output = fed(words, &text);
            assert!(matches!(output.status.code(), Some(0 | 1)), "round {round}, {words:?}: {output:?}");
        }
    }
}

/// A new folder with these files.
fn room(name: &str, files: &[(&[u8], &[u8])]) -> PathBuf {
    let folder = Path::new(env!("CARGO_TARGET_TMPDIR")).join(name);
    let _ = std::fs::remove_dir_all(&folder);
    std::fs::create_dir_all(&folder).expect("a folder");
    for (file, text) in files {
        std::fs::write(folder.join(OsStr::from_bytes(file)), text).expect("a file");
    }
    folder
}

/// What `tally` says of the files in the folder: its status, standard output and standard error.
fn tally(folder: &Path, names: &[&[u8]]) -> (Option<i32>, String, String) {
    let names = names.iter().map(|name| OsStr::from_bytes(name));
    let output = program(&["tally"]).args(names).current_dir(folder).output().expect("it ends");
    let text = |bytes: &[u8]| String::from_utf8(bytes.to_vec()).expect("UTF-8");
    (output.status.code(), text(&output.stdout), text(&output.stderr))
}

#[test]
fn tallies_stand_in_a_table_in_the_order_of_the_names() {
    // A file that is named twice counts twice.
    let names: [&[u8]; 6] =
        [b"worked.plan", b"thursday.plan", b"morning.plan", b"month/20.plan", b"monday.plan", b"monday.plan"];
    let expected = "\
plan              jobs  started  kept  thrown away  rest
worked.plan          2        1     1            0     0
thursday.plan        2        1     0            1     0
morning.plan         8        4     1            3     0
month/20.plan        9        2     0            0     2
monday.plan          2        1     1            0     0
monday.plan          2        1     1            0     0
total of 6 plans    25       10     4            4     2
Kept: 400 thousandths of the guesses started.
";
    assert_eq!(tally(&examples(), &names), (Some(0), expected.to_owned(), String::new()));
}

#[test]
fn a_plan_without_a_tally_leaves_no_table() {
    let folder = room("no-table", &[(b"a", &example("monday.plan")), (b"b", b"cell value\n0 007\n"), (b"c", b"")]);
    let no_file = "gaugeplan: reading `d` failed: No such file or directory (os error 2)\n";
    let no_plan = "gaugeplan: reading `.` failed: Is a directory (os error 21)\n";
    let (status, output, message) = tally(&folder, &[b"c", b"a", b"b"]);
    assert_eq!((status, output.as_str()), (Some(1), ""));
    let heads: Vec<&str> = message.lines().filter(|line| line.starts_with("gaugeplan: ")).collect();
    assert_eq!(heads, ["c", "b"].map(|name| format!("gaugeplan: there is no table, since `{name}` is at fault")));
    assert!(message.starts_with(&format!("{}\nfault line\n21 1\n\nFault 21 on line 1: ", heads[0])), "{message}");
    assert!(message.contains(&format!("\n\n{}\nfault line\n21 2\n\nFault 21 on line 2: ", heads[1])), "{message}");
    assert_eq!(tally(&folder, &[b"a", b"d", b".", b"a"]), (Some(2), String::new(), format!("{no_file}{no_plan}")));
    // Files that cannot be read are told first; the faults are told too.
    let both = (Some(2), String::new(), format!("{no_file}\n{message}"));
    assert_eq!(tally(&folder, &[b"c", b"d", b"b"]), both);
}

#[test]
fn files_of_any_name_are_tallied() {
    let monday = example("monday.plan");
    let names: [&[u8]; 7] =
        [b"two words", "M\u{e4}rz".as_bytes(), b"line\nfeed", b"\xff\xc3", b"it's `\"", b"\\", b"1 2 3 4 5"];
    let folder = room("names", &names.map(|name| (name, monday.as_slice())));
    let (status, output, message) = tally(&folder, &names);
    assert_eq!((status, message.as_str()), (Some(0), ""));
    let shown = ["two words", "M\u{e4}rz", "line\\nfeed", "\\xff\\xc3", "it's `\"", "\\\\", "1 2 3 4 5"];
    let lines = shown.map(|name| format!("{name:16}     2        1     1            0     0"));
    assert_eq!(output.lines().skip(1).take(7).collect::<Vec<_>>(), lines);
    let (_, _, message) = tally(&folder, &[b"no\nfile\xff"]);
    assert_eq!(message, "gaugeplan: reading `no\\nfile\\xff` failed: No such file or directory (os error 2)\n");
    std::fs::write(folder.join("--all"), &monday).expect("a file");
    assert_eq!(tally(&folder, &[b"./--all"]).0, Some(0));
    assert!(tally(&folder, &[b"--all"]).2.contains("a file of that name is given as `./--all`\n"));
}

#[test]
fn a_file_is_read_no_further_than_a_plan_may_go() {
    let head = b"cell value\n0 1500\nkind p a b c\nguess\n1\nstep job\n".as_slice();
    let steps = b"0 0\n".repeat((65_536 - head.len()) / 4 - 1);
    let digits = vec![b'1'; 65_536 - head.len() - steps.len() - 3];
    let longest = [head, &steps, b"0 ", &digits, b"\n"].concat();
    let folder = room("long", &[(b"longest", &longest), (b"longer", &[longest.as_slice(), b"\n"].concat())]);
    assert_eq!((longest.len(), tally(&folder, &[b"longest"]).0), (65_536, Some(0)));
    for name in [b"longer".as_slice(), b"/dev/zero"] {
        let (status, output, message) = tally(&folder, &[b"longest", name]);
        assert_eq!((status, output.as_str()), (Some(1), ""));
        assert!(message.contains("\nfault line\n22 0\n\nFault 22 on line 0: "), "{message}");
    }
}

#[test]
fn tally_fails_where_writing_does_and_reads_no_standard_input() {
    let plan = examples().join("monday.plan").display().to_string();
    let table = shell(&["tally", &plan], "").stdout;
    assert!(table.starts_with(b"plan "));
    for redirected in ["<&-", "</", "<&- 2>&-"] {
        let output = shell(&["tally", &plan], redirected);
        assert_eq!((output.status.code(), output.stdout), (Some(0), table.clone()), "{redirected}");
    }
    for redirected in [">&-", ">/dev/full", "<&- >&-", "<&- >/dev/full"] {
        let output = shell(&["tally", &plan], redirected);
        let told = String::from_utf8_lossy(&output.stderr);
        assert_eq!(output.status.code(), Some(2), "{redirected}");
        assert!(told.starts_with("gaugeplan: writing standard output failed: ") && told.lines().count() == 1, "{told}");
    }
    assert_eq!(shell(&["tally", &plan], "<&- >&- 2>&-").status.code(), Some(2));
    // Where reading has failed there was nothing to write.
    assert_eq!(shell(&["tally", "/no/file"], ">&-").stderr.iter().filter(|byte| **byte == b'\n').count(), 1);
}
