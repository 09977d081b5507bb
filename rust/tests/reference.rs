//! The reference implementation against the examples of documents 01 and 02, against what is promised of padding, of erased cells, of
//! windows and of levels, and against itself where a class is small enough to try everything.

mod common;

use common::reference::*;
use common::words::any_word;
use common::{erasures, faults, levels, padding, windows, Random, Reference, ReferenceLevels};

/// The worked card's first lines, and those that are written behind them.
const HEAD: &str = "columns=5\nrows=5\nplanes=1\nstrength=3\n";
const WRITTEN: &str = "classes=5\nrow=10011\nrow=00101\nrow=10100\nrow=10101\nrow=10110\n";

/// What the card program says to a text.
fn answer(text: &str) -> String {
    String::from_utf8(card(text.as_bytes())).unwrap()
}

/// What it says to the worked card with these rows.
fn answer_to_rows(rows: [&str; 5]) -> String {
    let rows: String = rows.iter().map(|row| format!("row={row}\n")).collect();
    answer(&format!("{HEAD}{rows}"))
}

/// The worked card's payload, with so many cells mended.
fn read(mended: usize) -> String {
    format!("{HEAD}mended={mended}\npayload=a5\n")
}

/// The worked card as it is written, and as it was written before; each whole, and with three cells lost.
#[test]
fn the_worked_card() {
    assert_eq!(answer(&format!("{HEAD}payload=a5\n")), format!("{HEAD}{WRITTEN}"));
    assert_eq!(answer_to_rows(["10011", "00101", "10100", "10101", "10110"]), read(0));
    assert_eq!(answer_to_rows(["10011", "00101", "10010", "10001", "10110"]), read(3));
    assert_eq!(answer_to_rows(["11011", "00101", "10100", "00101", "10100"]), read(0));
    assert_eq!(answer_to_rows(["11011", "00101", "10010", "00001", "10100"]), read(3));
}

#[test]
fn the_examples() {
    let plan = |w, h, d, t| plan(&Shape::of_strength(w, h, d, t));
    let decode_two = |cells| decode(&Shape::of_strength(2, 1, 1, 1), &mut [], cells);
    assert_eq!(class_of(&Shape::of_strength(256, 256, 1, 4), 1, 0, 0), Ok(3));
    assert_eq!(class_of(&Shape::of_strength(256, 256, 1, 5), 12, 0, 0), Ok(5));
    assert_eq!([0, 1, 2, 3, 7, 8].map(checks), [0, 1, 2, 2, 3, 4]);
    assert_eq!(plan(5, 5, 1, 3), Ok(Plan { classes: 5, capacity: 10, bytes: 1, cells: 25, used: 5, digits: 0 }));
    assert_eq!(plan(3, 1, 1, 5), Ok(Plan { classes: 13, capacity: 0, bytes: 0, cells: 3, used: 3, digits: 0 }));
    assert_eq!(decode_two(&[0, 1]), Ok(1));
    assert_eq!(decode_two(&[1, 1]), Err(6));
    assert_eq!(distance_test(7, 2, 3, 3), Ok(Distance { holds: true, row: 0, plane: 0, column: 0, tried: 12 }));
    assert_eq!(distance_test(7, 2, 3, 4), Ok(Distance { holds: false, row: 0, plane: 2, column: -1, tried: 9 }));
    assert!(plan(256, 256, 1, 1).is_ok());
    assert_eq!(plan(257, 1, 1, 1), Err(1));
    assert_eq!(plan(256, 256, 2, 1), Err(1));
    assert!(plan(256, 16, 16, 1).is_ok());
    assert!(plan(256, 256, 1, 32).is_ok());
    assert_eq!(plan(256, 256, 1, 33), Err(2));
    assert!(plan(16, 16, 16, 8).is_ok());
    assert_eq!(plan(16, 16, 16, 9), Err(2));
}

/// Decode and correct give a number, or a count; correct leaves the cells given, and on a refusal those that it got.
fn assert_read(w: usize, cells: &[u8], answer: Result<usize, Number>, left: &[u8]) {
    let (shape, mut field) = (Shape::of_strength(w, 1, 1, 1), cells.to_vec());
    assert_eq!(decode(&shape, &mut [], cells), answer, "{cells:?}");
    assert_eq!(correct(&shape, &mut field), answer, "{cells:?}");
    assert_eq!(field, left, "{cells:?}");
}

#[test]
fn the_examples_with_erased_cells() {
    assert_read(2, &[0, 2], Ok(1), &[0, 0]);
    assert_read(2, &[1, 2], Err(6), &[1, 2]);
    assert_read(2, &[2, 2], Ok(2), &[0, 0]);
    assert_read(3, &[2, 2, 2], Err(10), &[2, 2, 2]);
    assert_read(4, &[3, 2, 2, 2], Err(5), &[3, 2, 2, 2]);
    assert_read(3, &[1, 1, 2], Ok(1), &[1, 1, 1]);
    assert_read(5, &[0, 1, 1, 1, 2], Err(7), &[0, 1, 1, 1, 2]);
}

/// One padding cell may hold either value; of two or three, cells 3, 5 and 6 of a class, all are as they are written or all are 0.
#[test]
fn the_examples_of_padding() {
    assert_read(3, &[0, 0, 0], Ok(0), &[0, 0, 0]);
    assert_read(3, &[1, 1, 1], Ok(0), &[1, 1, 1]);
    assert_read(3, &[1, 1, 0], Ok(1), &[1, 1, 1]);
    assert_read(5, &[0, 0, 0, 0, 0], Ok(0), &[0, 0, 0, 0, 0]);
    assert_read(5, &[1, 1, 1, 0, 0], Ok(0), &[1, 1, 1, 0, 0]);
    assert_read(5, &[1, 0, 0, 1, 1], Err(7), &[1, 0, 0, 1, 1]);
    assert_read(5, &[0, 1, 1, 1, 1], Err(7), &[0, 1, 1, 1, 1]);
    assert_read(5, &[0, 0, 1, 0, 0], Ok(1), &[0, 0, 0, 0, 0]);
    assert_read(6, &[1, 0, 1, 1, 0, 1], Ok(0), &[1, 0, 1, 1, 0, 1]);
    assert_read(6, &[1, 1, 1, 0, 0, 0], Err(7), &[1, 1, 1, 0, 0, 0]);
}

#[test]
fn cards_with_erased_cells() {
    assert_eq!(answer_to_rows(["22011", "20101", "10100", "10122", "10112"]), read(6));
    assert_eq!(answer_to_rows(["22222", "20101", "10100", "10122", "10112"]), "refusal=10\n");
    assert_eq!(answer_to_rows(["22222", "00101", "10100", "10101", "10110"]), read(5));
    assert_eq!(answer_to_rows(["10011", "00101", "10100", "10101", "10113"]), "refusal=8\n");
}

#[test]
fn every_padding() {
    padding::try_every_value::<Reference>();
}

#[test]
fn two_clusters_are_filled() {
    erasures::fill_two_clusters::<Reference>(30_000);
}

#[test]
fn erased_cells_of_a_class() {
    erasures::erase_classes::<Reference>(10_000);
}

#[test]
fn erased_padding() {
    erasures::erase_padding::<Reference>(10_000);
}

#[test]
fn erased_cells_beside_a_flip() {
    erasures::erase_beside_a_flip::<Reference>(10_000);
}

#[test]
fn the_tests_of_a_window() {
    for (t, p, q, answer) in [
        (0, 0, 0, Err(2)),
        (0, 0, 1, Err(11)),
        (0, 1, 0, Err(11)),
        (0, 1, 1, Ok(())),
        (0, 1, 512, Ok(())),
        (0, 1, 513, Err(11)),
        (0, 22, 23, Ok(())),
        (0, 23, 23, Err(11)),
        (0, 1 << 32, 1 << 32, Err(11)),
        (0, usize::MAX, usize::MAX, Err(11)),
        (3, 0, 0, Ok(())),
        (3, 0, 1, Err(11)),
        (3, 2, 2, Err(11)),
        (33, 2, 2, Err(2)),
    ] {
        assert_eq!(test(&Shape { w: 5, h: 5, d: 1, t, p, q }), answer, "strength {t}, window {p} by {q}");
        // In more than one plane no window rules; no size comes before any of it.
        let in_stack = if (t, answer) == (0, Ok(())) { Err(11) } else { answer };
        assert_eq!(test(&Shape { w: 5, h: 5, d: 2, t, p, q }), in_stack, "strength {t}, window {p} by {q}, a stack");
        assert_eq!(test(&Shape { w: 257, h: 5, d: 1, t, p, q }), Err(1), "strength {t}, window {p} by {q}, 257 columns");
    }
}

/// The classes of a window, without a remainder: each has one cell of the first window, and all that lie whole windows after it.
#[test]
fn the_classes_of_a_window() {
    for (w, h, p, q) in
        [(5, 5, 2, 3), (7, 4, 1, 3), (4, 9, 5, 2), (3, 3, 4, 5), (19, 26, 22, 23), (30, 2, 1, 512), (2, 30, 512, 1)]
    {
        let shape = Shape::of_window(w, h, p, q);
        let mut expected = Vec::new();
        for (row, column) in (0..p).flat_map(|row| (0..q).map(move |column| (row, column))) {
            let rows = (row..h).step_by(p);
            expected
                .push(rows.flat_map(|row| (column..w).step_by(q).map(move |column| row * w + column)).collect::<Vec<usize>>());
        }
        assert_eq!(classes(&shape), expected, "{shape:?}");
        for (class, cells) in expected.iter().enumerate() {
            assert!(cells.iter().all(|cell| class_of(&shape, cell / w, 0, cell % w) == Ok(class)), "{shape:?}");
        }
    }
}

/// In a window of the field, wherever it lies, every class comes up once.
#[test]
fn every_class_once_in_a_window() {
    for (p, q) in (1..=5).flat_map(|p| (1..=5).map(move |q| (p, q))).chain([(22, 23), (1, 40), (40, 1)]) {
        let (h, w) = (2 * p + 3, 2 * q + 3);
        let shape = Shape::of_window(w, h, p, q);
        for (row, column) in (0..=h - p).flat_map(|row| (0..=w - q).map(move |column| (row, column))) {
            let window = (row..row + p).flat_map(|row| (column..column + q).map(move |column| (row, column)));
            let mut found: Vec<usize> = window.map(|(row, column)| class_of(&shape, row, 0, column).unwrap()).collect();
            found.sort_unstable();
            assert_eq!(found, (0..p * q).collect::<Vec<usize>>(), "{shape:?} {row} {column}");
        }
    }
}

#[test]
fn cards_with_a_window() {
    let head = "columns=5\nrows=5\nplanes=1\nstrength=0\nwindow_rows=2\nwindow_columns=3\n";
    let written = answer(&format!("{head}payload=a5\n"));
    assert!(written.starts_with(&format!("{head}classes=6\n")), "{written}");
    let rows = written.replace("classes=6\n", "");
    assert_eq!(answer(&rows), format!("{head}mended=0\npayload=a5\n"));
    let zeros = "window_rows=0\nwindow_columns=0\n";
    assert_eq!(answer(&format!("{HEAD}{zeros}payload=a5\n")), format!("{HEAD}{zeros}{WRITTEN}"));
    assert_eq!(answer(&format!("{}payload=a5\n", head.replace("window_rows=2\n", ""))), "refusal=8\n");
    assert_eq!(answer(&format!("{}payload=a5\n", head.replace("strength=0", "strength=3"))), "refusal=11\n");
}

#[test]
fn windows_are_undone() {
    windows::undo_windows::<Reference>(10_000);
    windows::fill_two_windows::<Reference>(5_000);
    windows::undo_patches::<Reference>(2_000);
}

#[test]
fn every_set_in_a_window() {
    windows::undo_every_set::<Reference>(4, 2, &[(6, 6, 2, 3), (7, 5, 3, 2)]);
    windows::fill_every_two::<Reference>(4, 3);
    windows::undo_every_patch::<Reference>(5, 4);
}

#[test]
fn the_examples_of_levels() {
    let digits = |w, h, d, t| plan(&Shape::of_strength(w, h, d, t)).unwrap().digits;
    assert_eq!([digits(12, 1, 1, 2), digits(7, 1, 1, 1), digits(256, 256, 1, 1)], [10, 5, 54_610]);
    let words = words(&Shape::of_strength(12, 1, 1, 2));
    assert_eq!(words, [[0, 2, 4, 6, 8, 10], [1, 3, 5, 7, 9, 11]]);
    assert_eq!(digit_cells(&words), (2..12).collect::<Vec<usize>>());
    assert_eq!(ignored_cells(&Shape::of_strength(7, 1, 1, 1)), [6]);
    levels::try_worked_examples::<ReferenceLevels>();
}

/// The 24 faults of a word change its sum by all remainders that are not 0, and so never make two lawful words of one; and every fill of
/// the other five cells has one check.
#[test]
fn the_faults_of_a_word() {
    let multipliers = [1, 5, 6, 11, 16, 21];
    let mut remainders: Vec<i32> =
        multipliers.iter().flat_map(|multiplier| CHANGES.map(|change| (multiplier * change).rem_euclid(25))).collect();
    remainders.sort_unstable();
    assert_eq!(remainders, (1..25).collect::<Vec<i32>>());
    let mut random = Random::new(37);
    for _ in 0..20_000 {
        let mut word = any_word(&mut random);
        assert!(lawful_words(&word).len() <= 1, "{word:?}");
        let checks = (0..=MAX_LEVEL).filter(|&check| is_lawful(&[check, word[1], word[2], word[3], word[4], word[5]])).count();
        assert_eq!(checks, 1, "{word:?}");
        fill_check(&mut word);
        assert_eq!(lawful_words(&word), [word]);
    }
}

#[test]
fn faults_of_levels() {
    faults::undo_every_fault::<ReferenceLevels>();
    faults::refuse_faults_from_no_level::<ReferenceLevels>();
    faults::change_ignored_cells::<ReferenceLevels>();
    faults::refuse_bad_levels::<ReferenceLevels>();
}

#[test]
fn clusters_of_levels_are_undone() {
    faults::undo_clusters::<ReferenceLevels>(30_000);
}

#[test]
fn the_settings_hold() {
    for t in 1..=32 {
        let flat = settings(&Shape::of_strength(1, 1, 1, t));
        assert!(flat_holds(flat.m, flat.b, t as i64), "flat, strength {t}");
    }
    for t in 1..=8 {
        let stack = settings(&Shape::of_strength(1, 1, 2, t));
        let tested = distance_test(stack.m as usize, stack.b as usize, stack.c as usize, t).unwrap();
        assert!(tested.holds, "stack, strength {t}");
        assert_eq!(tested.tried, (t - 1) * (2 * t * t - t + 3) / 3);
    }
}

#[test]
fn the_count_of_triples_when_none_is_found() {
    for t in 1..=18 {
        let tested = distance_test(4093, 550, 2331, t).unwrap();
        assert_eq!((tested.holds, tested.tried), (true, (t - 1) * (2 * t * t - t + 3) / 3), "strength {t}");
    }
}

/// No two cells of one class in a flat field are closer than t.
fn flat_holds(m: i64, b: i64, t: i64) -> bool {
    (0..t).all(|row| {
        (1 - t..t).all(|column| {
            let sum = row + column.abs();
            sum == 0 || sum >= t || (column - b * row) % m != 0
        })
    })
}

#[test]
fn never_more_than_one_codeword_in_reach() {
    for n in 0..=12usize {
        for value in 0..1usize << n {
            let class: Vec<u8> = (0..n).map(|i| (value >> i & 1) as u8).collect();
            let mut found = usize::from(is_codeword(&class));
            for i in 0..n {
                let mut other = class.clone();
                other[i] ^= 1;
                found += usize::from(is_codeword(&other));
            }
            assert!(found <= 1);
            assert_eq!(found == 1, codeword_in_reach(&class).is_some());
        }
    }
}

/// With one or two cells of a class erased there is never more than one filling that makes a codeword.
#[test]
fn never_more_than_one_codeword_filled() {
    for n in 1..=10usize {
        for value in 0..1usize << n {
            let class: Vec<u8> = (0..n).map(|i| (value >> i & 1) as u8).collect();
            for (one, other) in (0..n).flat_map(|one| (one..n).map(move |other| (one, other))) {
                let mut erased = class.clone();
                (erased[one], erased[other]) = (ERASED, ERASED);
                let mut found: Vec<Vec<u8>> = Vec::new();
                for (a, b) in [(0, 0), (0, 1), (1, 0), (1, 1)] {
                    let mut filled = class.clone();
                    filled[one] = a;
                    filled[other] = b;
                    if is_codeword(&filled) && !found.contains(&filled) {
                        found.push(filled);
                    }
                }
                assert!(found.len() <= 1);
                assert_eq!(codeword_of(&erased), found.pop());
            }
        }
    }
}

#[test]
fn one_codeword_for_each_choice_of_data() {
    for n in 0..=12usize {
        let codewords =
            (0..1usize << n).filter(|value| is_codeword(&(0..n).map(|i| (value >> i & 1) as u8).collect::<Vec<u8>>())).count();
        assert_eq!(codewords, 1 << (n - checks(n)));
    }
}

/// Of words of n cells, as numbers: none can have come from both, each with at most one cell turned over.
fn told_apart(n: usize, one: usize, other: usize) -> bool {
    (0..1usize << n).all(|word| (word ^ one).count_ones() > 1 || (word ^ other).count_ones() > 1)
}

/// The most words of n cells that are told apart: those taken, and others from `first` on.
fn most_words(n: usize, first: usize, taken: &mut Vec<usize>) -> usize {
    let mut most = taken.len();
    for word in first..1 << n {
        if taken.iter().all(|&other| told_apart(n, word, other)) {
            taken.push(word);
            most = most.max(most_words(n, word + 1, taken));
            taken.pop();
        }
    }
    most
}

#[test]
fn no_set_of_words_is_twice_as_large() {
    for n in 0..=5 {
        let in_use = 1 << (n - checks(n));
        let most = most_words(n, 0, &mut Vec::new());
        assert!(in_use <= most && most < 2 * in_use, "{n} cells: {in_use} words in use, {most} at most");
    }
}

#[test]
fn some_sets_of_words_are_larger() {
    let words = [0, 39, 59, 60, 75, 86, 93, 110, 113, 141, 147, 158, 170, 181, 199, 216, 228, 233, 242, 255];
    assert!(words.iter().all(|&one| words.iter().all(|&other| one == other || told_apart(8, one, other))));
    assert_eq!((words.len(), 1 << (8 - checks(8))), (20, 16));
}
