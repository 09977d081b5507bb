//! The README's programs and commands do what it says: each command after `$` is run, and must print the lines below it. Its table of
//! payloads is the library's, and the files that it links and the pictures that it shows are there.

use std::path::{Path, PathBuf};
use std::process::Command;
use varmintfoil::Shape;

fn root() -> PathBuf {
    PathBuf::from(env!("CARGO_MANIFEST_DIR")).parent().unwrap().to_path_buf()
}

fn readme() -> String {
    std::fs::read_to_string(root().join("README.md")).unwrap()
}

/// The indented blocks of the README, without their indent.
fn blocks() -> Vec<String> {
    let mut blocks = vec![String::new()];
    for line in readme().lines() {
        let block = blocks.last_mut().unwrap();
        match line.strip_prefix("    ") {
            Some(code) => *block += &format!("{code}\n"),
            None if line.is_empty() => *block += "\n",
            None => blocks.push(String::new()),
        }
    }
    blocks.iter().map(|block| block.trim_matches('\n').to_string()).filter(|block| !block.is_empty()).collect()
}

/// The part of a block before its first command.
fn program(start: &str) -> String {
    let block = blocks().into_iter().find(|block| block.starts_with(start)).expect("the README has the program");
    block.split("\n\n$ ").next().unwrap().to_string() + "\n"
}

/// Each command and what it must print.
fn commands() -> Vec<(String, String)> {
    let mut commands = Vec::new();
    for block in blocks() {
        for part in format!("\n{block}").split("\n$ ").skip(1) {
            let (command, output) = part.split_once('\n').unwrap();
            commands.push((command.to_string(), format!("{}\n", output.trim_end_matches('\n'))));
        }
    }
    commands
}

fn assert_prints(folder: &Path, command: &str, expected: &str) {
    let output = Command::new("sh").arg("-c").arg(command).current_dir(folder).output().unwrap();
    assert!(output.status.success(), "{command}: {}", String::from_utf8_lossy(&output.stderr));
    assert_eq!(String::from_utf8_lossy(&output.stdout), expected, "{command}");
}

#[test]
fn the_commands() {
    let folder = std::env::temp_dir().join(format!("varmintfoil-readme-{}", std::process::id()));
    std::fs::create_dir_all(&folder).unwrap();
    std::fs::write(folder.join("card.c"), program("#include")).unwrap();
    for name in ["include", "crates"] {
        std::os::unix::fs::symlink(root().join(name), folder.join(name)).unwrap();
    }
    let commands = commands();
    assert_eq!(commands.len(), 12, "the README's commands: {commands:?}");
    for (command, expected) in &commands {
        // The C program is built in a folder of its own, so that nothing is left in the repository.
        let place = if command.starts_with("cc ") { folder.clone() } else { root() };
        assert_prints(&place, command, expected);
    }
    std::fs::remove_dir_all(&folder).unwrap();
}

#[test]
fn the_rust_program() {
    let example = std::fs::read_to_string(root().join("rust/examples/card.rs")).unwrap();
    assert!(example.ends_with(&program("use varmintfoil")), "rust/examples/card.rs is the README's program");
}

/// The cells of a line of a table.
fn table_cells(line: &str) -> Vec<&str> {
    line.trim_matches('|').split('|').map(str::trim).collect()
}

/// The rows `N by N` of the table whose head is `field` and some strengths.
#[test]
fn the_payloads() {
    let text = readme();
    let mut lines = text.lines().skip_while(|line| !line.starts_with("| field | t = "));
    let number = |cell: &str| cell.rsplit(' ').next().unwrap().replace(',', "").parse::<usize>().unwrap();
    let strengths: Vec<usize> = table_cells(lines.next().unwrap())[1..].iter().map(|cell| number(cell)).collect();
    assert_eq!(strengths, [2, 4, 8]);
    let rows: Vec<Vec<&str>> = lines.skip(1).take_while(|line| line.starts_with('|')).map(table_cells).collect();
    assert_eq!(rows.len(), 4);
    for row in rows {
        let side = number(row[0]);
        assert_eq!(row[0], format!("{side} by {side}"));
        let bytes: Vec<usize> = row[1..].iter().map(|cell| number(cell)).collect();
        let planned = strengths.iter().map(|&t| Shape::new(side, side, 1, t).unwrap().payload_bytes());
        assert_eq!(bytes, planned.collect::<Vec<usize>>(), "{side} by {side}");
    }
}

#[test]
fn the_links() {
    let text = readme();
    let links: Vec<&str> = text.split("](").skip(1).map(|rest| rest.split(')').next().unwrap()).collect();
    for link in &links {
        let there = match link.strip_prefix('#') {
            Some(part) => text.lines().any(|line| line.starts_with('#') && anchor(line) == part),
            None => root().join(link).exists(),
        };
        assert!(there, "{link}");
    }
    let shown = text.lines().filter(|line| line.starts_with("![") && line.contains("](docs/pictures/")).count();
    assert_eq!(shown, 3, "the pictures shown");
}

/// The name under which a heading is linked.
fn anchor(heading: &str) -> String {
    let words = heading.trim_start_matches('#').trim().to_lowercase();
    words.chars().filter(|c| c.is_alphanumeric() || *c == ' ').collect::<String>().replace(' ', "-")
}
