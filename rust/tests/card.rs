//! The card program, run as a process: the worked card, a witness for each refusal and each fault of form, and generated texts against
//! the reference implementation. `VARMINTFOIL_CARD` names the program; without it, crates/card/out/card.

mod common;

use common::*;
use std::fs::File;
use std::io::Write;
use std::path::PathBuf;
use std::process::{Command, Output, Stdio};

fn program() -> PathBuf {
    let path = match std::env::var_os("VARMINTFOIL_CARD") {
        Some(path) => PathBuf::from(path),
        None => PathBuf::from(env!("CARGO_MANIFEST_DIR")).parent().unwrap().join("crates/card/out/card"),
    };
    assert!(path.is_file(), "the card program {} is not there: run `rt run --cpu x86-64` in crates/card", path.display());
    path
}

/// Runs the program on an input; it must end by itself, with the exit status 0.
fn run_into(input: &[u8], stdout: Stdio) -> Output {
    let mut child = Command::new(program())
        .stdin(Stdio::piped())
        .stdout(stdout)
        .stderr(Stdio::piped())
        .spawn()
        .expect("the card program starts");
    let mut stdin = child.stdin.take().unwrap();
    let input = input.to_vec();
    // The program may stop reading early, and the rest of the input is then refused by the pipe.
    let writer = std::thread::spawn(move || {
        let _ = stdin.write_all(&input);
    });
    let output = child.wait_with_output().unwrap();
    writer.join().unwrap();
    assert_eq!(output.status.code(), Some(0), "{:?}", output.status);
    output
}

/// What the program writes to its standard output for an input. It must write nothing else.
fn run(input: &[u8]) -> Vec<u8> {
    let output = run_into(input, Stdio::piped());
    assert_eq!(String::from_utf8_lossy(&output.stderr), "");
    output.stdout
}

fn assert_output(input: &[u8], expected: &str, what: &str) {
    assert_eq!(String::from_utf8_lossy(&run(input)), expected, "{what}");
    assert_eq!(String::from_utf8_lossy(&reference::card(input)), expected, "the reference implementation: {what}");
}

fn assert_refusal(input: &str, number: usize, what: &str) {
    assert_output(input.as_bytes(), &format!("refusal={number}\n"), what);
}

/// The first four lines.
fn first_lines(columns: &str, rows: &str, planes: &str, strength: &str) -> String {
    format!("columns={columns}\nrows={rows}\nplanes={planes}\nstrength={strength}\n")
}

/// The six first lines of a card with the sides of a window.
fn window_lines(columns: &str, rows: &str, planes: &str, strength: &str, p: &str, q: &str) -> String {
    first_lines(columns, rows, planes, strength) + &format!("window_rows={p}\nwindow_columns={q}\n")
}

/// The worked card's first four lines.
const HEAD: &str = "columns=5\nrows=5\nplanes=1\nstrength=3\n";

/// The worked card: written, and read as it is written and as it was written before, whole and with three cells lost.
#[test]
fn the_worked_card() {
    assert_output(
        b"columns=5\nrows=5\nplanes=1\nstrength=3\npayload=a5\n",
        "columns=5\nrows=5\nplanes=1\nstrength=3\nclasses=5\nrow=10011\nrow=00101\nrow=10100\nrow=10101\nrow=10110\n",
        "written",
    );
    assert_read(&card_of(["10011", "00101", "10100", "10101", "10110"]), 0, "a5", "whole");
    assert_read(&card_of(["10011", "00101", "10010", "10001", "10110"]), 3, "a5", "damaged");
    assert_read(&card_of(["11011", "00101", "10100", "00101", "10100"]), 0, "a5", "as it was written before");
    assert_read(&card_of(["11011", "00101", "10010", "00001", "10100"]), 3, "a5", "as it was written before, damaged");
}

/// A card of 7 by 5 in two planes, where no number is another's, in the same ways.
#[test]
fn a_card_of_two_planes() {
    let head = first_lines("7", "5", "2", "3");
    // By padding the second, eighth and tenth row differ, and by the damage the third and the eighth.
    let card = |second: &str, third: &str, eighth: &str, tenth: &str| {
        let first_plane = format!("row=1000001\nrow={second}\nrow={third}\nrow=1010000\nrow=1001111\n");
        first_plane + &format!("row=0001110\nrow=0011110\nrow={eighth}\nrow=0110010\nrow={tenth}\n")
    };
    let written = card("1010000", "0000101", "1101100", "0101010");
    let payload = "0b3c71e64a";
    assert_output(format!("{head}payload={payload}\n").as_bytes(), &format!("{head}classes=7\n{written}"), "written");
    assert_read(&(head.clone() + &written), 0, payload, "whole");
    let damaged = card("1010000", "0001101", "1100000", "0101010");
    assert_read(&(head.clone() + &damaged), 3, payload, "damaged");
    let earlier = card("1011000", "0000101", "1001100", "0101000");
    assert_read(&(head.clone() + &earlier), 0, payload, "as it was written before");
    let damaged = card("1011000", "0001101", "1000000", "0101000");
    assert_read(&(head.clone() + &damaged), 3, payload, "as it was written before, damaged");
}

#[test]
fn empty_payloads() {
    assert_output(
        b"columns=2\nrows=1\nplanes=1\nstrength=1\npayload=\n",
        "columns=2\nrows=1\nplanes=1\nstrength=1\nclasses=1\nrow=00\n",
        "written",
    );
    assert_output(
        b"columns=2\nrows=1\nplanes=1\nstrength=1\nrow=01\n",
        "columns=2\nrows=1\nplanes=1\nstrength=1\nmended=1\npayload=\n",
        "read",
    );
}

#[test]
fn refused_shapes() {
    for (columns, rows, planes) in
        [("0", "5", "1"), ("257", "1", "1"), ("5", "0", "1"), ("1", "257", "1"), ("5", "5", "0"), ("5", "5", "17")]
    {
        assert_refusal(
            &(first_lines(columns, rows, planes, "3") + "payload=a5\n"),
            1,
            &format!("{columns} by {rows} by {planes}"),
        );
    }
    assert_refusal(&(first_lines("256", "256", "2", "1") + "payload=\n"), 1, "a product above 65,536");
    assert_refusal(&(first_lines("65537", "1", "1", "1") + "payload=\n"), 1, "columns=65537");
    assert_refusal(&(first_lines("65541", "5", "1", "3") + "payload=a5\n"), 1, "65,536 and 5 columns");
    assert_refusal(&(first_lines("99999", "99999", "99999", "99999") + "payload=\n"), 1, "the largest numbers");
    assert_refusal(&(first_lines("0", "5", "1", "0") + "payload=a5\n"), 1, "1 before 2");
    assert_refusal(&(first_lines("257", "1", "1", "1") + "nonsense"), 1, "1 before a later fault of form");
    assert_refusal(&first_lines("257", "1", "1", "1"), 1, "1 before a card that ends early");
}

#[test]
fn refused_strengths() {
    assert_refusal(&(first_lines("5", "5", "1", "0") + "payload=a5\n"), 2, "strength 0");
    assert_refusal(&(first_lines("5", "5", "1", "33") + "payload=a5\n"), 2, "flat, strength 33");
    assert_refusal(&(first_lines("5", "5", "2", "9") + "payload=a5\n"), 2, "stack, strength 9");
    assert_refusal(&(first_lines("5", "5", "1", "65539") + "payload=a5\n"), 2, "strength=65539");
    assert_refusal(&(first_lines("256", "256", "1", "0") + "payload=\n"), 2, "2 before a card of too many cells");
    assert_refusal(&(first_lines("5", "5", "1", "0") + "nonsense"), 2, "2 before a later fault of form");
}

#[test]
fn refused_payloads_and_fields() {
    assert_refusal(&format!("{HEAD}payload=\n"), 3, "an empty payload");
    assert_refusal(&format!("{HEAD}payload=a5a5\n"), 3, "a long payload");
    assert_refusal(&strip("11"), 6, "cells 1 1");
    assert_refusal(&strip("01111"), 7, "padding 1 1");
}

/// A card of one row and one class.
fn strip(row: &str) -> String {
    first_lines(&row.len().to_string(), "1", "1", "1") + &format!("row={row}\n")
}

/// Cells 3, 5 and 6 of a class are padding: as it is written, as it was written before, and of another value.
#[test]
fn padding_of_cards() {
    for (row, what) in [("000", "0"), ("111", "1"), ("00000", "0 0"), ("11100", "1 0"), ("000000", "0 0 0"), ("101101", "1 0 1")]
    {
        assert_read(&strip(row), 0, "", &format!("padding {what}"));
    }
    assert_read(&strip("101"), 1, "", "padding that correction leaves at 1");
    assert_read(&strip("00100"), 1, "", "padding that correction leaves at 0 0");
    assert_refusal(&strip("11111"), 7, "padding that correction leaves at 1 1");
    for (row, what) in [("10011", "0 1"), ("111000", "1 0 0"), ("011110", "1 1 0"), ("010101", "0 0 1")] {
        assert_refusal(&strip(row), 7, &format!("padding {what}"));
    }
}

/// The worked card's first four lines with rows of its own.
fn card_of(rows: [&str; 5]) -> String {
    rows.iter().fold(HEAD.to_string(), |text, row| text + &format!("row={row}\n"))
}

fn assert_read(text: &str, mended: usize, payload: &str, what: &str) {
    let head: String = text.split_inclusive('\n').take_while(|line| !line.starts_with("row=")).collect();
    assert_output(text.as_bytes(), &format!("{head}mended={mended}\npayload={payload}\n"), what);
}

#[test]
fn erased_cells() {
    assert_read(&card_of(["22011", "20101", "10100", "10122", "10112"]), 6, "a5", "two clusters apart");
    assert_read(&card_of(["10011", "02201", "12200", "12101", "10110"]), 5, "a5", "two clusters that touch");
    assert_read(&card_of(["10011", "02201", "10200", "10221", "10110"]), 5, "a5", "two clusters that overlap");
    assert_read(&card_of(["22222", "00101", "10100", "10101", "10110"]), 5, "a5", "the first row");
    assert_read(&card_of(["10011", "00101", "10100", "10101", "10112"]), 1, "a5", "the last cell");
    assert_read(&card_of(["20011", "00100", "10100", "10101", "10110"]), 2, "a5", "a cell, and one flipped in another class");
    assert_refusal(&card_of(["20011", "00111", "10100", "10101", "10110"]), 6, "a cell, and one flipped in its class");
    assert_refusal(&card_of(["22222", "20101", "10100", "10122", "10112"]), 10, "three cells of a class");
    assert_refusal(&card_of(["22222", "22222", "22222", "22222", "22222"]), 10, "every cell");
    assert_read(&card_of(["22011", "20101", "10100", "00122", "10102"]), 6, "a5", "as it was written before, two clusters");
    assert_read(&strip("02"), 1, "", "cells 0 2");
    assert_read(&strip("22"), 2, "", "cells 2 2");
    assert_refusal(&strip("12"), 6, "cells 1 2");
    assert_refusal(&strip("222"), 10, "cells 2 2 2");
    assert_read(&strip("112"), 1, "", "padding that filling makes 1");
    assert_refusal(&strip("01112"), 7, "padding that filling makes 1 1");
    assert_refusal(&strip("3222"), 8, "cells 3 2 2 2");
    assert_refusal(&(strip("222") + "x"), 8, "8 before 10");
    // The first class of two is out of reach, and then the second has three erased cells.
    let two = |row: &str| first_lines("8", "1", "1", "2") + &format!("row={row}\n");
    assert_refusal(&two("10000010"), 6, "the first class out of reach");
    assert_refusal(&two("12020210"), 10, "10 before 6, in a later class");
}

/// A card of 9 by 7 that a window of 3 by 4 rules: written, and read with all cells of a window flipped, wherever it lies.
#[test]
fn cards_with_a_window() {
    let shape = Numbers::of_window(9, 7, 3, 4);
    let head = window_lines("9", "7", "1", "0", "3", "4");
    let plan = reference::plan(&shape).unwrap();
    assert_eq!((plan.classes, plan.cells), (12, 63));
    let payload: String = (0..plan.bytes).map(|i| format!("{:02x}", 0xa5 ^ (i * 37))).collect();
    let written = String::from_utf8(reference::card(format!("{head}payload={payload}\n").as_bytes())).unwrap();
    assert!(written.starts_with(&format!("{head}classes=12\nrow=")), "{written}");
    assert_output(format!("{head}payload={payload}\n").as_bytes(), &written, "written");
    let whole = written.replace("classes=12\n", "");
    assert_read(&whole, 0, &payload, "read again");
    let lines: Vec<&str> = whole.lines().skip(6).collect();
    for (top, left, what) in [
        (2, 3, "inside"),
        (-1, 3, "over the first row"),
        (5, 3, "over the last row"),
        (2, -2, "over the first column"),
        (2, 7, "over the last column"),
        (-2, -3, "over the first corner"),
        (6, 8, "over the last corner"),
        (-1, 6, "over the first row and the last column"),
        (6, -1, "over the last row and the first column"),
    ] {
        let hit =
            |row: usize, column: usize| (top..top + 3).contains(&(row as i32)) && (left..left + 4).contains(&(column as i32));
        let mut count = 0;
        let mut damaged = head.clone();
        for (row, line) in lines.iter().enumerate() {
            let cells = line.strip_prefix("row=").unwrap().bytes().enumerate();
            let digits = cells.map(|(column, digit)| char::from(if hit(row, column) { digit ^ 1 } else { digit }));
            damaged += &format!("row={}\n", digits.collect::<String>());
            count += (0..9).filter(|&column| hit(row, column)).count();
        }
        assert_read(&damaged, count, &payload, what);
    }
}

/// Cells that touch by corners alone, on a card that a window of 3 by 3 rules.
#[test]
fn torn_corners() {
    let head = window_lines("5", "5", "1", "0", "3", "3");
    let blank = |rows: [&str; 5]| rows.iter().fold(head.clone(), |text, row| text + &format!("row={row}\n"));
    assert_read(&blank(["00000", "00000", "00000", "00000", "00000"]), 0, "", "a blank card");
    assert_read(&blank(["00000", "01000", "00100", "00010", "00000"]), 3, "", "aslant");
    assert_read(&blank(["00001", "00010", "00000", "00000", "00000"]), 2, "", "at a corner");
    assert_read(&blank(["20200", "02000", "20200", "00000", "00022"]), 7, "", "erased, in two windows");
}

#[test]
fn windows_that_are_given_as_zeros() {
    let zeros = "window_rows=0\nwindow_columns=0\n";
    assert_output(
        format!("{HEAD}{zeros}payload=a5\n").as_bytes(),
        &format!("{HEAD}{zeros}classes=5\nrow=10011\nrow=00101\nrow=10100\nrow=10101\nrow=10110\n"),
        "written",
    );
    assert_read(
        &format!("{HEAD}{zeros}row=10011\nrow=00101\nrow=10010\nrow=10001\nrow=10110\n"),
        3,
        "a5",
        "read, with three cells lost",
    );
    assert_refusal(&(window_lines("5", "5", "1", "0", "0", "0") + "payload=a5\n"), 2, "strength 0 and zeros");
    assert_refusal(&(window_lines("5", "5", "2", "0", "0", "0") + "payload=a5\n"), 2, "strength 0 and zeros, a stack");
}

#[test]
fn refused_windows() {
    for (planes, strength, p, q, number, what) in [
        ("1", "0", "0", "3", 11, "no rows"),
        ("1", "0", "3", "0", 11, "no columns"),
        ("1", "0", "99999", "1", 11, "99,999 rows"),
        ("1", "0", "1", "99999", 11, "99,999 columns"),
        ("1", "0", "99999", "99999", 11, "the largest numbers"),
        ("1", "0", "65536", "65536", 11, "65,536 by 65,536"),
        ("1", "0", "65537", "1", 11, "65,536 rows and 1"),
        ("1", "0", "513", "1", 11, "513 rows"),
        ("1", "0", "23", "23", 11, "529 cells"),
        ("1", "0", "2", "257", 11, "514 cells"),
        ("2", "0", "2", "2", 11, "a stack"),
        ("2", "0", "0", "2", 11, "a stack and no rows"),
        ("1", "3", "2", "2", 11, "beside a strength"),
        ("1", "3", "0", "2", 11, "one side beside a strength"),
        ("2", "3", "2", "2", 11, "beside a strength, a stack"),
        ("1", "33", "2", "2", 2, "2 before 11"),
        ("2", "9", "0", "2", 2, "2 before 11, a stack"),
        ("0", "0", "0", "2", 1, "1 before 11"),
    ] {
        let head = window_lines("5", "5", planes, strength, p, q);
        assert_refusal(&format!("{head}payload=a5\n"), number, what);
        assert_refusal(&format!("{head}nonsense"), number, &format!("{what}, before a later fault of form"));
    }
    assert_refusal(&(window_lines("257", "1", "1", "0", "2", "2") + "payload=\n"), 1, "1 before a window that is taken");
    assert_refusal(&(window_lines("256", "256", "1", "0", "0", "2") + "payload=\n"), 11, "11 before a card of too many cells");
    assert_refusal(&(window_lines("256", "65", "1", "0", "2", "2") + "payload=\n"), 8, "a card of too many cells");
    assert_refusal(&(window_lines("5", "5", "1", "0", "2", "3") + "payload=\n"), 3, "an empty payload");
    assert_refusal(&(window_lines("5", "5", "1", "0", "2", "3") + "payload=A5\n"), 8, "an upper-case digit");
    // The largest windows, of which a field of 5 by 5 has a part alone.
    for (p, q) in [("512", "1"), ("1", "512"), ("22", "23")] {
        assert_refusal(&(window_lines("5", "5", "1", "0", p, q) + "payload=a5a5\n"), 3, &format!("{p} by {q}, taken"));
    }
}

/// Where one line of the sides stands behind the strength, both must, in their order; a fault there comes before any number is weighed.
#[test]
fn faults_in_the_lines_of_a_window() {
    for columns in ["5", "300"] {
        for (sides, what) in [
            ("window_rows=2\n", "the rows alone"),
            ("window_columns=3\n", "the columns alone"),
            ("window_rows=0\n", "no rows alone"),
            ("window_columns=0\n", "no columns alone"),
            ("window_columns=3\nwindow_rows=2\n", "the other order"),
            ("window_columns=0\nwindow_rows=0\n", "zeros in the other order"),
            ("window_rows=2\nwindow_rows=2\n", "the rows twice"),
            ("window_columns=3\nwindow_columns=3\n", "the columns twice"),
            ("window_rows=\nwindow_columns=3\n", "no digit"),
            ("window_rows=02\nwindow_columns=3\n", "a leading zero"),
            ("window_rows=2\nwindow_columns=00\n", "a needless zero"),
            ("window_rows=100000\nwindow_columns=3\n", "six digits"),
            ("window_rows=2 window_columns=3\n", "no line feed between"),
            ("window_rows=2\r\nwindow_columns=3\r\n", "carriage returns"),
            ("window_rows=2\n\nwindow_columns=3\n", "an empty line between"),
            ("window_rows=2\nwindow_column=3\n", "another key for the columns"),
            ("window_rows=2\nwindow_columns 3\n", "no equals sign for the columns"),
            ("window_rows=-2\nwindow_columns=3\n", "a minus sign"),
        ] {
            for rest in ["payload=a5\n", ""] {
                let text = first_lines(columns, "5", "1", "0") + sides + rest;
                assert_refusal(&text, 8, &format!("{columns} columns: {what}, then {rest:?}"));
            }
        }
        let head = first_lines(columns, "5", "1", "0");
        assert_refusal(&format!("{head}window_rows=2\nwindow_columns=3"), 8, "the line of the columns not ended");
        assert_refusal(&format!("{head}window_rows="), 8, "the key of the rows, and nothing after it");
        // What does not begin with either key is looked at later, after the numbers.
        for later in ["window_rows\n", "window_row=2\n", "Window_rows=2\n", "window_rows 2\n", "window", " window_rows=2\n"] {
            let number = if columns == "300" { 1 } else { 2 };
            assert_refusal(&format!("{head}{later}"), number, &format!("{columns} columns: {later:?}"));
            let head = first_lines("5", "5", "1", "3");
            assert_refusal(&format!("{head}{later}payload=a5\n"), 8, &format!("{later:?}, a fault of form later"));
        }
    }
    // Between other lines, and behind the payload.
    for text in [
        "window_rows=2\nwindow_columns=3\ncolumns=5\nrows=5\nplanes=1\nstrength=0\npayload=a5\n",
        "columns=5\nrows=5\nplanes=1\nwindow_rows=2\nwindow_columns=3\nstrength=0\npayload=a5\n",
        "columns=5\nrows=5\nplanes=1\nstrength=3\npayload=a5\nwindow_rows=0\nwindow_columns=0\n",
        "columns=5\nrows=5\nplanes=1\nstrength=3\nwindow_rows=0\nwindow_columns=0\nwindow_rows=0\nwindow_columns=0\npayload=a5\n",
    ] {
        assert_refusal(text, 8, "sides in another place");
    }
}

#[test]
fn faults_in_the_first_lines() {
    let rest = "payload=a5\n";
    for (number, what) in [
        ("", "no digit"),
        ("00", "a needless zero"),
        ("05", "a leading zero"),
        ("000005", "leading zeros"),
        ("100000", "six digits"),
        ("+5", "a sign"),
        ("-5", "a minus sign"),
        (" 5", "a space before"),
        ("5 ", "a space after"),
        ("5\r", "a carriage return"),
        ("5.", "a point"),
        ("0x5", "hexadecimal"),
        ("5a", "a letter"),
        ("5\0", "a zero byte"),
        ("٥", "a digit of another script"),
        ("=5", "two equals signs"),
    ] {
        for place in 0..6 {
            let mut numbers = ["5", "5", "1", "3", "0", "0"];
            numbers[place] = number;
            let [columns, rows, planes, strength, p, q] = numbers;
            let text = window_lines(columns, rows, planes, strength, p, q) + rest;
            assert_refusal(&text, 8, &format!("line {}: {what}", place + 1));
            if place < 4 {
                let text = first_lines(columns, rows, planes, strength) + rest;
                assert_refusal(&text, 8, &format!("line {} of four: {what}", place + 1));
            }
        }
    }
    for (text, what) in [
        ("", "an empty input"),
        ("\n", "an empty line"),
        ("\ncolumns=5\nrows=5\nplanes=1\nstrength=3\npayload=a5\n", "an empty line first"),
        ("rows=5\ncolumns=5\nplanes=1\nstrength=3\npayload=a5\n", "another order"),
        ("columns=5\nrows=5\nstrength=3\nplanes=1\npayload=a5\n", "another order at the end"),
        ("columns=5\nrows=5\nplanes=1\npayload=a5\n", "a line missing"),
        ("columns=5\ncolumns=5\nrows=5\nplanes=1\nstrength=3\npayload=a5\n", "a line twice"),
        ("Columns=5\nrows=5\nplanes=1\nstrength=3\npayload=a5\n", "another key"),
        ("columns 5\nrows=5\nplanes=1\nstrength=3\npayload=a5\n", "no equals sign"),
        ("columns =5\nrows=5\nplanes=1\nstrength=3\npayload=a5\n", "a space in the key"),
        (" columns=5\nrows=5\nplanes=1\nstrength=3\npayload=a5\n", "a space before the key"),
        ("columns=5 rows=5 planes=1 strength=3 payload=a5\n", "no line feeds"),
        ("columns=5\r\nrows=5\r\nplanes=1\r\nstrength=3\r\npayload=a5\r\n", "carriage returns"),
        ("columns=5\nrows=5\nplanes=1\nstrength=3", "the fourth line not ended"),
        ("columns=5\nrows=5\nplanes=1", "the third line not ended"),
        ("columns", "a key alone"),
        ("columns=0\nrows=5\nplanes=1\nstrength=x\npayload=a5\n", "8 before 1, in the fourth line"),
        ("columns=5\nrows=5\nplanes=0\nstrength=3", "8 before 1, the fourth line not ended"),
        ("columns=257\nrows=05\nplanes=1\nstrength=3\npayload=a5\n", "8 before 1, in the second line"),
    ] {
        assert_refusal(text, 8, what);
    }
}

#[test]
fn faults_in_the_later_lines() {
    for (rest, what) in [
        ("", "nothing"),
        ("\n", "an empty line"),
        ("payload=a\n", "one hexadecimal digit"),
        ("payload=a5a\n", "an odd number of digits"),
        ("payload=A5\n", "an upper-case digit"),
        ("payload=aF\n", "an upper-case second digit"),
        ("payload=g5\n", "no digit"),
        ("payload=5/\n", "the byte before 0"),
        ("payload=5:\n", "the byte after 9"),
        ("payload=5`\n", "the byte before a"),
        ("payload=a5\r\n", "a carriage return"),
        ("payload=a5", "the last line feed missing"),
        ("payload= a5\n", "a space before"),
        ("payload=a5 \n", "a space after"),
        ("payload\n", "no equals sign"),
        ("payload", "a key alone"),
        ("Payload=a5\n", "another key"),
        ("payloads=a5\n", "a longer key"),
        ("payload=a5\n\n", "an empty line after"),
        ("payload=a5\nx", "a byte after"),
        ("payload=a5\n\0", "a zero byte after"),
        ("payload=a5\npayload=a5\n", "a second payload"),
        ("payload=a5\nrow=10011\n", "a row after the payload"),
        ("payload=\npayload=a5\n", "a second payload after one of the wrong length"),
        ("classes=5\nrow=10011\nrow=00101\nrow=10100\nrow=10101\nrow=10110\n", "what the program prints"),
        ("row=10013\nrow=00101\nrow=10100\nrow=10101\nrow=10110\n", "a digit 3"),
        ("row=10011\nrow=00101\nrow=10100\nrow=10101\nrow=10119\n", "a digit 9 in the last row"),
        ("row=22222\nrow=22222\nrow=10100\nrow=10101\nrow=10113\n", "8 before 10"),
        ("row=10011\nrow=00101\nrow=10100\nrow=10101\nrow=1011/\n", "the byte before 0 in the last row"),
        ("row=10011\nrow=0010\nrow=10100\nrow=10101\nrow=10110\n", "a short row"),
        ("row=10011\nrow=001011\nrow=10100\nrow=10101\nrow=10110\n", "a long row"),
        ("row=10011\nrow=001011\nrow=1010\nrow=10101\nrow=10110\n", "a long row and a short one"),
        ("row=\nrow=00101\nrow=10100\nrow=10101\nrow=10110\n", "an empty row"),
        ("row=10011\nrow=00101\nrow=10100\nrow=10101\n", "a row too few"),
        ("row=10011\nrow=00101\nrow=10100\nrow=10101\nrow=10110\nrow=00000\n", "a row too many"),
        ("row=10011\nrow=00101\nrow=10100\nrow=10101\nrow=10110\n\n", "an empty line after the rows"),
        ("row=10011\nrow=00101\nrow=10100\nrow=10101\nrow=10110", "the last line feed missing after a row"),
        ("row=10011\nrow=00101\nrow=10100\nrow=10101\nrow=10110\r\n", "a carriage return in the last row"),
        ("row=10011\r\nrow=00101\nrow=10100\nrow=10101\nrow=10110\n", "a carriage return in the first row"),
        ("row=10011\nrow=00101\npayload=a5\n", "a payload among the rows"),
        ("row=10011\nrow=00101\nrow=10100\nrow=10101\nrow=10110\npayload=a5\n", "a payload after the rows"),
        ("row=10011\nrows=00101\nrow=10100\nrow=10101\nrow=10110\n", "another key among the rows"),
        ("row=1001100101\nrow=10100\nrow=10101\nrow=10110\n", "two rows in a line"),
        ("row=11111\nrow=11111\nrow=11111\nrow=11111\nrow=11110\nx", "8 before 6"),
        ("payload=a5a5\nx", "8 before 3, a byte after"),
        ("payload=a5a5a\n", "8 before 3, an odd number of digits"),
    ] {
        assert_refusal(&format!("{HEAD}{rest}"), 8, what);
    }
    assert_refusal(&(strip("01111") + "x"), 8, "8 before 7");
    assert_refusal(
        "columns=5\nrows=5\nplanes=2\nstrength=3\nrow=10011\nrow=00101\nrow=10100\nrow=10101\nrow=10110\n",
        8,
        "one plane of two",
    );
}

#[test]
fn cards_of_many_cells() {
    assert_refusal(&(first_lines("256", "65", "1", "32") + "payload=\n"), 8, "more than 16,384 cells, flat");
    assert_refusal(&(first_lines("113", "29", "5", "3") + "payload=\n"), 8, "16,385 cells, a stack");
    assert_refusal(&(first_lines("256", "256", "1", "1") + "payload=\n"), 8, "65,536 cells");
    assert_refusal(&(first_lines("256", "64", "1", "32") + "payload=\n"), 3, "exactly 16,384 cells, taken");
    // The largest cards, written and read again, and the one with the most text.
    for (w, h, d, t) in [(256, 64, 1, 32), (128, 128, 1, 16), (64, 16, 16, 8), (4, 256, 16, 5), (1, 256, 16, 6)] {
        assert_written_and_read(&Numbers::of_strength(w, h, d, t), false);
    }
    for (w, h, p, q) in [(256, 64, 8, 8), (128, 128, 22, 22), (64, 256, 512, 1), (256, 64, 1, 512)] {
        assert_written_and_read(&Numbers::of_window(w, h, p, q), true);
    }
    // The longest answer of all.
    assert_eq!(assert_written_and_read(&Numbers::of_strength(4, 256, 16, 8), true), 36_946);
}

/// A card is written and read again, with the sides of its window given or left out; gives the length of what is written.
fn assert_written_and_read(shape: &Numbers, sides_given: bool) -> usize {
    let plan = shape.plan().unwrap();
    let payload: String = (0..plan.bytes).map(|i| format!("{:02x}", i * 37 % 256)).collect();
    let head = head_of(shape, sides_given);
    let written = run(format!("{head}payload={payload}\n").as_bytes());
    assert_eq!(written, reference::card(format!("{head}payload={payload}\n").as_bytes()));
    let length = written.len();
    let rows = String::from_utf8(written).unwrap().replace(&format!("classes={}\n", plan.classes), "");
    assert_output(rows.as_bytes(), &format!("{head}mended=0\npayload={payload}\n"), "read again");
    length
}

#[test]
fn long_inputs() {
    // A payload of the wrong length fills the input up to the limit, where 3 is given, and beyond, where 8 is.
    let text = |columns: &str, digits: usize| format!("{}payload={}\n", first_lines(columns, "5", "1", "3"), "a".repeat(digits));
    let exact = text("5", 65_490);
    assert_eq!(exact.len(), 65_536);
    assert_refusal(&exact, 3, "exactly 65,536 bytes");
    let above = text("10", 65_490);
    assert_eq!(above.len(), 65_537);
    assert_refusal(&above, 8, "exactly 65,537 bytes");
    assert_refusal(&text("5", 200_000), 8, "200,046 bytes");
    let shape = text("0", 65_490);
    assert_eq!(shape.len(), 65_536);
    assert_refusal(&shape, 1, "exactly 65,536 bytes and no columns");
    assert_refusal(&(shape + "a"), 8, "65,537 bytes and no columns");
    // A whole card, then bytes beyond the limit.
    let whole = format!("{HEAD}payload=a5\n");
    assert_refusal(&(whole.clone() + &"\n".repeat(65_537 - whole.len())), 8, "a whole card and line feeds");
    assert_output(&vec![0; 65_536], "refusal=8\n", "65,536 zero bytes");
    assert_output(&vec![0; 1_000_000], "refusal=8\n", "a million zero bytes");
}

/// An input for each kind of answer and for each refusal, one with the longest answer, one that ends at once and one that is too long.
fn all_kinds() -> Vec<String> {
    let zeros = "00".repeat(Numbers::of_strength(4, 256, 16, 8).plan().unwrap().bytes);
    vec![
        format!("{HEAD}payload=a5\n"),
        format!("{HEAD}row=10011\nrow=00101\nrow=10010\nrow=10001\nrow=10110\n"),
        window_lines("4", "256", "16", "8", "0", "0") + &format!("payload={zeros}\n"),
        window_lines("5", "5", "1", "0", "2", "3") + "payload=a5\n",
        window_lines("2", "1", "1", "0", "1", "1") + "row=01\n",
        window_lines("5", "5", "1", "0", "0", "3") + "payload=a5\n",
        first_lines("5", "5", "1", "0") + "window_rows=2\npayload=a5\n",
        first_lines("257", "1", "1", "1") + "payload=\n",
        first_lines("5", "5", "1", "33") + "payload=a5\n",
        format!("{HEAD}payload=\n"),
        strip("11"),
        strip("111"),
        strip("01111"),
        strip("22"),
        strip("222"),
        format!("{HEAD}payload=A5\n"),
        String::new(),
        "\n".repeat(100_000),
    ]
}

#[test]
fn nothing_on_standard_error() {
    for text in all_kinds() {
        let output = run_into(text.as_bytes(), Stdio::piped());
        assert_eq!(String::from_utf8_lossy(&output.stderr), "", "{text}");
        assert_eq!(output.stdout, reference::card(text.as_bytes()), "{text}");
    }
}

/// A full device takes no byte of the answer.
#[test]
fn an_answer_that_cannot_be_written() {
    for text in all_kinds() {
        let full = File::options().write(true).open("/dev/full").unwrap();
        let output = run_into(text.as_bytes(), full.into());
        let said = String::from_utf8_lossy(&output.stderr).into_owned();
        assert_eq!(said, "card: not all of the answer could be written\n", "{text}");
    }
}

/// The first lines of a shape, with the sides of its window or without them.
fn head_of(shape: &Numbers, sides_given: bool) -> String {
    let &Numbers { w, h, d, t, p, q } = shape;
    let sides = if sides_given { format!("window_rows={p}\nwindow_columns={q}\n") } else { String::new() };
    format!("columns={w}\nrows={h}\nplanes={d}\nstrength={t}\n{sides}")
}

/// A card text of a random shape: a payload to write, or rows to read. Sides of 0 are given half the time.
fn whole_card(random: &mut Random, shape: &Numbers) -> Vec<u8> {
    let head = head_of(shape, (shape.p, shape.q) != (0, 0) || random.once_in(2));
    let Ok(plan) = shape.plan() else {
        return (head + "payload=a5\n").into_bytes();
    };
    if random.once_in(2) {
        let n = length(random, plan.bytes);
        let digits: String = random.bytes(n).iter().map(|byte| format!("{byte:02x}")).collect();
        return format!("{head}payload={digits}\n").into_bytes();
    }
    // A bad cell becomes a digit, mostly one above 2.
    let field = any_field(random, shape, true);
    let row = |cells: &[u8]| cells.iter().map(|&cell| char::from(b'0' + cell % 10)).collect::<String>();
    let rows: String = field.chunks(shape.w).map(|cells| format!("row={}\n", row(cells))).collect();
    (head + &rows).into_bytes()
}

/// Breaks a text, most often in its form.
fn break_text(random: &mut Random, text: &mut Vec<u8>) {
    let place = random.below(text.len());
    let stray = random.pick(b"\n\r\0 =01239afAFgrxz/:\x80\xff");
    let lines: Vec<Vec<u8>> = text.split_inclusive(|&byte| byte == b'\n').map(<[u8]>::to_vec).collect();
    let line = random.below(lines.len());
    match random.below(8) {
        0 => text[place] = stray,
        1 => text.insert(place, stray),
        2 => drop(text.remove(place)),
        3 => text.truncate(place),
        4 => text.push(stray),
        5 => {
            let mut lines = lines;
            lines.insert(line, lines[line].clone());
            *text = lines.concat();
        }
        6 => {
            let mut lines = lines;
            lines.remove(line);
            *text = lines.concat();
        }
        _ => {
            let mut lines = lines;
            let other = random.below(lines.len());
            lines.swap(line, other);
            *text = lines.concat();
        }
    }
}

#[test]
fn generated_cards() {
    let mut random = outside::random(10);
    let (mut written, mut read, mut refused) = (0, 0, [0; 12]);
    for _ in 0..outside::rounds(1800) {
        let mut shape = lawful_shape(&mut random, true);
        if random.once_in(6) {
            let other = random.pick(&[0, 9, 17, 33, 257, 513, 65_537, 65_539, 99_999, 100_000]);
            match random.below(6) {
                0 => shape.w = other,
                1 => shape.h = other,
                2 => shape.d = other,
                3 => shape.p = other,
                4 => shape.q = other,
                _ => shape.t = other,
            }
        }
        let mut text = whole_card(&mut random, &shape);
        if random.once_in(3) {
            break_text(&mut random, &mut text);
        }
        let expected = reference::card(&text);
        assert_eq!(
            String::from_utf8_lossy(&run(&text)),
            String::from_utf8_lossy(&expected),
            "{}",
            String::from_utf8_lossy(&text)
        );
        let answer = String::from_utf8(expected).unwrap();
        match answer.strip_prefix("refusal=") {
            Some(number) => refused[number.trim_end().parse::<usize>().unwrap()] += 1,
            None if answer.contains("classes=") => written += 1,
            None => read += 1,
        }
    }
    println!("written {written}, read {read}, refused {refused:?}");
    assert!(written >= 100 && read >= 100 || outside::fewer());
    for number in [1, 2, 3, 6, 7, 8, 10, 11] {
        assert!(refused[number] >= 10 || outside::fewer(), "{number} came up {} times", refused[number]);
    }
    assert_eq!([refused[0], refused[4], refused[5], refused[9]], [0; 4]);
}
