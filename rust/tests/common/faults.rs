//! Faults of fields of levels: changed cells of words and of none, bytes that are no levels, and what must come of them.

use super::reference::{Word, CHANGES, MAX_LEVEL};
use super::words::{any_word, change, changed, small_shapes, Cut, NO_LEVELS};
use super::*;

/// The multipliers of the cells of a word.
const MULTIPLIERS: Word<i32> = [1, 5, 6, 11, 16, 21];

/// A word of levels with a given one at a place, such that it would be lawful if that cell were less by a number, which may make it no
/// level. Another cell is searched: the first or, where that is given, one whose multiplier is prime to 25.
fn word_with(random: &mut Random, place: usize, level: u8, less: i32) -> Word<u8> {
    let searched = if place == 0 { random.from(2, 5) } else { 0 };
    let mut word = any_word(random);
    word[place] = level;
    for tried in 0..=MAX_LEVEL {
        word[searched] = tried;
        let sum: i32 = word.iter().zip(MULTIPLIERS).map(|(&level, multiplier)| i32::from(level) * multiplier).sum();
        if (sum - less * MULTIPLIERS[place]) % 25 == 0 {
            return word;
        }
    }
    unreachable!("some level of the searched cell makes the sum a multiple of 25");
}

/// Puts the levels of a word into a field.
fn put(field: &mut [u8], word: &Word<usize>, levels: &Word<u8>) {
    for (&cell, &level) in word.iter().zip(levels) {
        field[cell] = level;
    }
}

/// Every place in a word, with every change and every level of a list.
fn places(levels: &[u8]) -> impl Iterator<Item = (usize, i32, u8)> + '_ {
    (0..6).flat_map(move |place| CHANGES.iter().flat_map(move |&change| levels.iter().map(move |&level| (place, change, level))))
}

/// The levels near both ends, and one between.
const ENDS: [u8; 9] = [0, 1, 2, 3, 12, 21, 22, 23, 24];

/// All 24 faults of every word of small shapes come back: six places and four changes, from levels at both ends, where the changed cell is
/// a level.
pub fn undo_every_fault<C: Codec>() {
    let mut random = outside::random(31);
    let mut tried = [[0; 4]; 6];
    for cut in small_shapes::<C>() {
        let (_, mut field) = cut.written::<C>(&mut random);
        cut.assert_undone::<C>(&mut random, &field, &field);
        for word in &cut.words {
            for (place, change, level) in places(&ENDS) {
                let Some(after) = changed(level, change) else { continue };
                put(&mut field, word, &word_with(&mut random, place, level, 0));
                let mut again = random.bytes(cut.cells());
                guards::encode::<C>(&cut.shape, &cut.digits_of(&field), &mut again).unwrap();
                assert_eq!(again, field, "{:?}", cut.shape);
                let mut damaged = field.clone();
                damaged[word[place]] = after;
                cut.assert_undone::<C>(&mut random, &field, &damaged);
                tried[place][CHANGES.iter().position(|&other| other == change).unwrap()] += 1;
            }
        }
    }
    println!("faults: {tried:?}");
    assert!(tried.iter().flatten().all(|&times| times >= 100));
}

/// A word that only a cell of no level would have been changed to is out of reach, in every word of small shapes: 25 for a change of −1,
/// and less than 0 for the others.
pub fn refuse_faults_from_no_level<C: Codec>() {
    let mut random = outside::random(32);
    let mut tried = [[0; 4]; 6];
    for cut in small_shapes::<C>() {
        for word in &cut.words {
            let (_, field) = cut.written::<C>(&mut random);
            for (place, change, level) in places(&ENDS) {
                if changed(level, -change).is_none() {
                    let mut damaged = field.clone();
                    put(&mut damaged, word, &word_with(&mut random, place, level, change));
                    cut.assert_refused::<C>(&mut random, &damaged, 6);
                    tried[place][CHANGES.iter().position(|&other| other == change).unwrap()] += 1;
                }
            }
        }
    }
    println!("faults from no level: {tried:?}");
    assert!(tried.iter().flatten().all(|&times| times >= 100));
}

/// Every two faults in a word of some small shapes, as the reference reads them, and a word that is any six levels.
pub fn compare_two_faults<C: Codec>(rounds: usize) {
    let mut random = outside::random(33);
    let [mut decoded, mut corrected] = [(); 2].map(|()| Tally::default());
    for cut in small_shapes::<C>().into_iter().filter(|cut| !cut.words.is_empty()) {
        for _ in 0..outside::rounds(rounds) {
            let (_, field) = cut.written::<C>(&mut random);
            let word = random.pick(&cut.words);
            let mut words = vec![any_word(&mut random)];
            for ((one, change, _), (other, another, _)) in places(&[0]).flat_map(|a| places(&[0]).map(move |b| (a, b))) {
                let mut levels = word.map(|cell| field[cell]);
                if let (true, Some(a), Some(b)) = (one < other, changed(levels[one], change), changed(levels[other], another)) {
                    (levels[one], levels[other]) = (a, b);
                    words.push(levels);
                }
            }
            for levels in words {
                let mut damaged = field.clone();
                put(&mut damaged, &word, &levels);
                compare_decode::<C>(&cut.shape, &random.bytes(cut.data.len()), &damaged, &mut decoded);
                compare_correct::<C>(&cut.shape, &damaged, &mut corrected);
            }
        }
    }
    decoded.assert_numbers("decode levels with two faults", &[6]);
    corrected.assert_numbers("correct levels with two faults", &[6]);
}

/// Each cell of small shapes that belongs to no word, at every level; then all of them, beside a fault in every word.
pub fn change_ignored_cells<C: Codec>() {
    let mut random = outside::random(34);
    let mut tried = 0;
    for cut in small_shapes::<C>() {
        let (_, field) = cut.written::<C>(&mut random);
        assert!(cut.ignored.iter().all(|&cell| field[cell] == 0), "{:?} {field:?}", cut.shape);
        for (&cell, level) in cut.ignored.iter().flat_map(|cell| (1..=MAX_LEVEL).map(move |level| (cell, level))) {
            let mut damaged = field.clone();
            damaged[cell] = level;
            cut.assert_undone::<C>(&mut random, &field, &damaged);
            tried += 1;
        }
        let mut damaged = field.clone();
        for word in &cut.words {
            let cell = random.pick(word);
            change(&mut random, &mut damaged, &[cell]);
        }
        for &cell in &cut.ignored {
            damaged[cell] = random.from(1, 24) as u8;
        }
        cut.assert_undone::<C>(&mut random, &field, &damaged);
    }
    println!("ignored cells: {tried}");
    assert!(tried >= 1000);
}

/// Every digit and every cell of small shapes that is no level is refused with 12, of a word or of none, also where some word is out of
/// reach.
pub fn refuse_bad_levels<C: Codec>() {
    let mut random = outside::random(35);
    for cut in small_shapes::<C>() {
        let (digits, field) = cut.written::<C>(&mut random);
        for (place, bad) in (0..digits.len()).flat_map(|place| NO_LEVELS.map(|bad| (place, bad))) {
            let (mut wrong, before) = (digits.clone(), random.bytes(cut.cells()));
            wrong[place] = bad;
            let mut after = before.clone();
            assert_eq!(guards::encode::<C>(&cut.shape, &wrong, &mut after), Err(12), "{:?} {wrong:?}", cut.shape);
            assert_eq!(after, before, "{:?} {wrong:?}", cut.shape);
        }
        let mut out_of_reach = field.clone();
        for word in &cut.words {
            put(&mut out_of_reach, word, &word_with(&mut random, 0, 24, -1));
        }
        for (cell, bad) in (0..cut.cells()).flat_map(|cell| NO_LEVELS.map(|bad| (cell, bad))) {
            for field in [&field, &out_of_reach] {
                let mut wrong = field.clone();
                wrong[cell] = bad;
                cut.assert_refused::<C>(&mut random, &wrong, 12);
            }
        }
    }
}

/// Any cells of any one cluster of at most t cells, or of any one window, each changed by −1 to 3, are undone, and counted.
pub fn undo_clusters<C: Codec>(times: usize) {
    let mut random = outside::random(36);
    let mut tally = Tally::default();
    // The holes with a cell of a word, and those with a cell of none.
    let (mut of_words, mut of_none) = (0, 0);
    for _ in 0..outside::rounds(times) {
        let mut cut = Cut::new(lawful_shape(&mut random, C::WINDOWS));
        while cut.words.is_empty() && random.once_in(2) {
            cut = Cut::new(lawful_shape(&mut random, C::WINDOWS));
        }
        let (_, field) = cut.written::<C>(&mut random);
        let hit = hole(&mut random, &cut.shape);
        let (cells, mut damaged) = (some_of(&mut random, &hit), field.clone());
        change(&mut random, &mut damaged, &cells);
        cut.assert_undone::<C>(&mut random, &field, &damaged);
        tally.note(&cut.shape, 0);
        of_words += usize::from(cells.iter().any(|cell| !cut.ignored.contains(cell)));
        of_none += usize::from(cells.iter().any(|cell| cut.ignored.contains(cell)));
    }
    println!("clusters of levels: {of_words} with cells of words, {of_none} with others");
    assert!(of_words >= 1000 && of_none >= 1000 || outside::fewer());
    tally.assert_stacks("clusters of levels");
}
