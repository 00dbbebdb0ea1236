//! The commands that README.md shows are run as they stand there. A block marked `sh` holds
//! commands for the repository's root; a block marked `text` right after it shows the last lines
//! that they print.

use std::env;
use std::fs;
use std::path::{Path, PathBuf};
use std::process::{Command, Stdio};

/// Seconds that one block may take.
const TIME_LIMIT: &str = "300";

/// The gate runs these tests, so they must not run the gate.
const GATE: &str = ".ci/run";

/// Set for the commands, so that one that runs these tests again is found out.
const INSIDE: &str = "GOVORUN_INSIDE_README";

/// Commands, the line where their block begins, and what they print if that is shown.
#[derive(Debug, PartialEq)]
struct Example {
    line: usize,
    commands: Vec<String>,
    output: Option<Vec<String>>,
}

/// A block between fences.
struct Block {
    kind: String,
    line: usize,
    lines: Vec<String>,
    /// Nothing but empty lines stands between it and the block before it.
    follows_directly: bool,
}

fn blocks(text: &str) -> Vec<Block> {
    let mut blocks: Vec<Block> = Vec::new();
    let mut open: Option<Block> = None;
    let mut nothing_between = false;
    for (index, line) in text.lines().enumerate() {
        match (line.strip_prefix("```"), &mut open) {
            (Some(_), Some(_)) => {
                blocks.extend(open.take());
                nothing_between = true;
            }
            (Some(kind), None) => {
                open = Some(Block {
                    kind: kind.trim().to_string(),
                    line: index + 1,
                    lines: Vec::new(),
                    follows_directly: nothing_between,
                });
            }
            (None, Some(block)) => block.lines.push(line.to_string()),
            (None, None) => nothing_between &= line.trim().is_empty(),
        }
    }
    assert!(open.is_none(), "a block is not closed");
    blocks
}

fn examples(text: &str) -> Vec<Example> {
    let blocks = blocks(text);
    let shown = |index: usize| {
        let next = blocks.get(index)?;
        (next.kind == "text" && next.follows_directly).then(|| next.lines.clone())
    };
    let is_commands = |(_, block): &(usize, &Block)| block.kind == "sh";
    blocks
        .iter()
        .enumerate()
        .filter(is_commands)
        .map(|(index, block)| Example {
            line: block.line,
            commands: block.lines.clone(),
            output: shown(index + 1),
        })
        .collect()
}

fn root() -> PathBuf {
    Path::new(env!("CARGO_MANIFEST_DIR")).join("..")
}

/// Runs the commands of a block, each of which must succeed, and compares what they print.
fn run(example: &Example) {
    let told = format!("line {}: {}", example.line, example.commands.join("; "));
    let output = Command::new("timeout")
        .args([TIME_LIMIT, "bash", "-e", "-o", "pipefail", "-c"])
        .arg(example.commands.join("\n"))
        .current_dir(root())
        .env(INSIDE, "1")
        .stdin(Stdio::null())
        .output()
        .expect("timeout is installed");
    let printed = String::from_utf8_lossy(&output.stdout);
    let complaint = String::from_utf8_lossy(&output.stderr);
    let status = output.status;
    assert!(status.success(), "{told}\n{status}\n{printed}{complaint}");
    let Some(expected) = &example.output else {
        return;
    };
    let lines: Vec<&str> = printed.lines().map(str::trim_end).collect();
    let last = &lines[lines.len().saturating_sub(expected.len())..];
    assert_eq!(last, expected, "{told}");
}

#[test]
fn commands_of_the_readme() {
    assert!(
        env::var_os(INSIDE).is_none(),
        "a command of README.md runs these tests, which run it"
    );
    let text = fs::read_to_string(root().join("README.md")).expect("README.md");
    let examples = examples(&text);
    let (gate, others): (Vec<_>, Vec<_>) = examples.iter().partition(|e| e.commands == [GATE]);
    println!("{} blocks, {} of them the gate", examples.len(), gate.len());
    assert!(!others.is_empty(), "README.md shows commands");
    others.into_iter().for_each(run);
}

#[test]
fn blocks_are_found() {
    let text =
        "# Title\n```sh\necho a\necho b\n```\n\n```text\nb\n```\nAnd\n```sh\n.ci/run\n```\nprose\n\
                ```text\nnot its output\n```\n```c\nint x;\n```\n```sh\ntrue\n```\n";
    let example = |line, commands: &[&str], output: Option<&str>| Example {
        line,
        commands: commands.iter().map(|c| c.to_string()).collect(),
        output: output.map(|line| vec![line.to_string()]),
    };
    let expected = [
        example(2, &["echo a", "echo b"], Some("b")),
        example(11, &[GATE], None),
        example(21, &["true"], None),
    ];
    assert_eq!(examples(text), expected);
}

#[test]
fn the_last_lines_are_compared() {
    let [first, ..] = &examples("```sh\necho a; echo b\n```\n```text\nb\n```\n")[..] else {
        panic!("there is a block");
    };
    run(first);
}

#[test]
#[should_panic(expected = "line 1: echo a")]
fn another_output_is_found() {
    examples("```sh\necho a\n```\n```text\nb\n```\n")
        .iter()
        .for_each(run);
}

#[test]
#[should_panic(expected = "exit status: 1")]
fn a_failing_command_is_found() {
    examples("```sh\nfalse | true\ntrue\n```\n")
        .iter()
        .for_each(run);
}
