//! The reference implementation: document 01, sentence by sentence, and the erased (unread) cells, the windows (oblong damage), the
//! padding (filler), the classes that hold a cell and the levels (shades) of document 02, in plain Rust.
//!
//! It is written to be read and to be compared with, not to be fast. A class is corrected by search, not by its syndrome: the class
//! as it is and with each one cell flipped is tried, and the codeword among them is taken. Where cells of a class are erased, both
//! values of each are tried, and no other cell is flipped. A word of levels is corrected by search too: the word as it is and with each
//! change of each cell taken back is tried. A refusal is the number that the documents list.

#![deny(unsafe_code)]
// Who includes this file may call a part of it.
#![allow(dead_code)]

/// The number of a refusal.
pub type Number = usize;

/// An erased cell: one that was not read.
pub const ERASED: u8 = 2;

/// The greatest level (shade).
pub const MAX_LEVEL: u8 = 24;

/// What `plan` gives: m, K, payload bytes, cells, the classes that hold at least one cell and the payload digits of a field of levels.
#[derive(Clone, Copy, Debug, PartialEq, Eq)]
pub struct Plan {
    pub classes: usize,
    pub capacity: usize,
    pub bytes: usize,
    pub cells: usize,
    pub used: usize,
    pub digits: usize,
}

/// What the distance test gives: the verdict, the triple found (or zeros) and the count of triples tried.
#[derive(Clone, Copy, Debug, PartialEq, Eq)]
pub struct Distance {
    pub holds: bool,
    pub row: i32,
    pub plane: i32,
    pub column: i32,
    pub tried: usize,
}

/// The numbers of a shape, of any size: W columns, H rows, D planes, the strength t, and p rows and q columns of a window.
#[derive(Clone, Copy, Debug, Default, PartialEq, Eq)]
pub struct Shape {
    pub w: usize,
    pub h: usize,
    pub d: usize,
    pub t: usize,
    pub p: usize,
    pub q: usize,
}

impl Shape {
    /// A shape that has a strength, and no window.
    pub fn of_strength(w: usize, h: usize, d: usize, t: usize) -> Shape {
        Shape { w, h, d, t, p: 0, q: 0 }
    }

    /// A flat shape that a window of p rows by q columns rules.
    pub fn of_window(w: usize, h: usize, p: usize, q: usize) -> Shape {
        Shape { w, h, d: 1, t: 0, p, q }
    }
}

/// The settings of a shape that has a strength: the class of a cell is (column − b × row − c × plane) mod m.
#[derive(Clone, Copy, Debug, PartialEq, Eq)]
pub struct Settings {
    pub m: i64,
    pub b: i64,
    pub c: i64,
}

/// m, b and c of a stack, for t from 1 to 8.
const STACK: [(i64, i64, i64); 8] =
    [(1, 0, 0), (2, 1, 1), (7, 2, 3), (12, 3, 5), (27, 4, 10), (38, 7, 11), (70, 16, 25), (92, 9, 39)];

// Shapes

/// W and H from 1 to 256, D from 1 to 16, W × H × D at most 65,536.
fn sides_fit(w: usize, h: usize, d: usize) -> bool {
    (1..=256).contains(&w) && (1..=256).contains(&h) && (1..=16).contains(&d) && w * h * d <= 65_536
}

/// t from 1 to 32 for a flat field and from 1 to 8 for a stack; or 0, where some side of the window is not 0.
fn strength_fits(shape: &Shape) -> bool {
    match shape.t {
        0 => shape.p != 0 || shape.q != 0,
        t => t <= if shape.d == 1 { 32 } else { 8 },
    }
}

/// With strength 0 two sides of at least 1, of at most 512 cells, and one plane; with another strength no side but 0.
fn window_fits(shape: &Shape) -> bool {
    let &Shape { d, t, p, q, .. } = shape;
    if t == 0 {
        d == 1 && p.checked_mul(q).is_some_and(|cells| (1..=512).contains(&cells))
    } else {
        p == 0 && q == 0
    }
}

/// Is the shape within the limits? 1, 2, 11.
pub fn test(shape: &Shape) -> Result<(), Number> {
    if !sides_fit(shape.w, shape.h, shape.d) {
        return Err(1);
    }
    if !strength_fits(shape) {
        return Err(2);
    }
    if !window_fits(shape) {
        return Err(11);
    }
    Ok(())
}

/// The settings that belong to a shape that has a strength.
pub fn settings(shape: &Shape) -> Settings {
    let t = shape.t as i64;
    if shape.d == 1 {
        if t % 2 == 1 {
            Settings { m: (t * t + 1) / 2, b: t, c: 0 }
        } else {
            Settings { m: t * t / 2, b: t + 1, c: 0 }
        }
    } else {
        let (m, b, c) = STACK[shape.t - 1];
        Settings { m, b, c }
    }
}

/// The number of classes, m.
pub fn number_of_classes(shape: &Shape) -> usize {
    if shape.t == 0 {
        shape.p * shape.q
    } else {
        settings(shape).m as usize
    }
}

/// The class of a cell where a window rules. The field is laid out with windows from its first cell on; in the window that has the cell
/// its row and its column are found by taking away whole windows, and the cells of a window are numbered row by row.
fn class_by_window(shape: &Shape, mut row: usize, mut column: usize) -> usize {
    while row >= shape.p {
        row -= shape.p;
    }
    while column >= shape.q {
        column -= shape.q;
    }
    row * shape.q + column
}

/// The class of cell (row, plane, column).
fn class_in(shape: &Shape, row: usize, plane: usize, column: usize) -> usize {
    if shape.t == 0 {
        return class_by_window(shape, row, column);
    }
    let s = settings(shape);
    (column as i64 - s.b * row as i64 - s.c * plane as i64).rem_euclid(s.m) as usize
}

/// The byte of cell (row, plane, column).
pub fn byte_of(shape: &Shape, row: usize, plane: usize, column: usize) -> usize {
    (plane * shape.h + row) * shape.w + column
}

/// The number of cells.
pub fn cells(shape: &Shape) -> usize {
    shape.w * shape.h * shape.d
}

/// For each class its cells in byte order; the cell at place i has position i + 1.
pub fn classes(shape: &Shape) -> Vec<Vec<usize>> {
    let mut classes = vec![Vec::new(); number_of_classes(shape)];
    for plane in 0..shape.d {
        for row in 0..shape.h {
            for column in 0..shape.w {
                classes[class_in(shape, row, plane, column)].push(byte_of(shape, row, plane, column));
            }
        }
    }
    classes
}

/// The number of classes that hold at least one cell: the classes of all cells are collected, each once, by search.
fn used_classes(shape: &Shape) -> usize {
    let mut found = Vec::new();
    for plane in 0..shape.d {
        for row in 0..shape.h {
            for column in 0..shape.w {
                let class = class_in(shape, row, plane, column);
                if !found.contains(&class) {
                    found.push(class);
                }
            }
        }
    }
    found.len()
}

// The code in a class

/// Positions that are powers of two hold checks.
fn is_check(position: usize) -> bool {
    (0..usize::BITS).any(|i| position == 1 << i)
}

/// The number of check cells of a class of n cells.
pub fn checks(n: usize) -> usize {
    (1..=n).filter(|&position| is_check(position)).count()
}

/// A class is a codeword (lawful) when the exclusive or of the positions of its 1 cells is 0.
pub fn is_codeword(class: &[u8]) -> bool {
    let mut sum = 0;
    for (place, &cell) in class.iter().enumerate() {
        if cell == 1 {
            sum ^= place + 1;
        }
    }
    sum == 0
}

/// The codeword that differs in at most one cell, if there is one.
pub fn codeword_in_reach(class: &[u8]) -> Option<Vec<u8>> {
    let mut tried = class.to_vec();
    if is_codeword(&tried) {
        return Some(tried);
    }
    for place in 0..tried.len() {
        tried[place] = 1 - tried[place];
        if is_codeword(&tried) {
            return Some(tried);
        }
        tried[place] = 1 - tried[place];
    }
    None
}

/// The number of erased cells of a class.
pub fn erasures(class: &[u8]) -> usize {
    class.iter().filter(|&&cell| cell == ERASED).count()
}

/// The codeword that agrees with every cell that was read, if there is one: both values of each erased cell are tried.
pub fn codeword_filled(class: &[u8]) -> Option<Vec<u8>> {
    let Some(place) = class.iter().position(|&cell| cell == ERASED) else {
        return is_codeword(class).then(|| class.to_vec());
    };
    let mut tried = class.to_vec();
    [0, 1].into_iter().find_map(|value| {
        tried[place] = value;
        codeword_filled(&tried)
    })
}

/// The codeword that a class stands for, if there is one. Where cells are erased, nothing is corrected.
pub fn codeword_of(class: &[u8]) -> Option<Vec<u8>> {
    if erasures(class) > 0 {
        codeword_filled(class)
    } else {
        codeword_in_reach(class)
    }
}

/// Fills the check cells of a class. Of the checks only the one at position 2^i counts in bit i, so each evens out the 1 cells of the
/// positions with that bit.
pub fn fill_checks(class: &mut [u8]) {
    for position in (1..=class.len()).filter(|&position| is_check(position)) {
        class[position - 1] = 0;
        let ones = (1..=class.len()).filter(|&other| other & position != 0 && class[other - 1] == 1).count();
        class[position - 1] = (ones % 2) as u8;
    }
}

// Fields

/// The cells that hold no check, in byte order.
pub fn data_cells(shape: &Shape) -> Vec<usize> {
    let mut data = Vec::new();
    for class in classes(shape) {
        for (place, &cell) in class.iter().enumerate() {
            if !is_check(place + 1) {
                data.push(cell);
            }
        }
    }
    data.sort();
    data
}

/// The cells of one class, taken out of a field.
fn take_class(field: &[u8], class: &[usize]) -> Vec<u8> {
    class.iter().map(|&cell| field[cell]).collect()
}

/// Puts the cells of one class back.
fn put_class(field: &mut [u8], class: &[usize], values: &[u8]) {
    for (&cell, &value) in class.iter().zip(values) {
        field[cell] = value;
    }
}

/// The field whose classes are all codewords, with the given bits in the cells that hold no check.
fn field_of_bits(shape: &Shape, bits: &[u8]) -> Vec<u8> {
    let (mut field, data) = (vec![0; cells(shape)], data_cells(shape));
    assert_eq!(bits.len(), data.len());
    put_class(&mut field, &data, bits);
    for class in classes(shape) {
        let mut values = take_class(&field, &class);
        fill_checks(&mut values);
        assert!(is_codeword(&values));
        put_class(&mut field, &class, &values);
    }
    field
}

/// The bits of a payload, highest first.
fn bits_of(payload: &[u8]) -> Vec<u8> {
    payload.iter().flat_map(|&byte| (0..8).rev().map(move |i| byte >> i & 1)).collect()
}

/// The bytes of some bits, highest first; eight bits each.
fn bytes_of(bits: &[u8]) -> Vec<u8> {
    bits.chunks_exact(8).map(|eight| eight.iter().fold(0, |byte, &bit| byte * 2 + bit)).collect()
}

/// The padding (filler) of so many cells, as it is written: the bits 1, 0 again and again, cut to its length.
fn written_padding(cells: usize) -> Vec<u8> {
    [1, 0].into_iter().cycle().take(cells).collect()
}

/// The padding of so many cells as it was written before.
fn earlier_padding(cells: usize) -> Vec<u8> {
    vec![0; cells]
}

/// Right padding: all of it is as it is written, or all of it as it was written before.
fn is_right_padding(padding: &[u8]) -> bool {
    padding == written_padding(padding.len()) || padding == earlier_padding(padding.len())
}

/// The field of a payload with a padding, whatever it is, behind the payload's last bit.
pub fn field_with(shape: &Shape, payload: &[u8], padding: &[u8]) -> Vec<u8> {
    field_of_bits(shape, &[&bits_of(payload), padding].concat())
}

/// The field of a payload as it was written before.
pub fn earlier_field(shape: &Shape, payload: &[u8]) -> Vec<u8> {
    field_with(shape, payload, &earlier_padding(data_cells(shape).len() % 8))
}

/// The field of the codewords that the classes stand for, if each stands for one.
fn corrected_field(classes: &[Vec<usize>], field: &[u8]) -> Option<Vec<u8>> {
    let mut corrected = field.to_vec();
    for class in classes {
        let values = codeword_of(&take_class(field, class))?;
        put_class(&mut corrected, class, &values);
    }
    Some(corrected)
}

/// The number of cells where two fields differ.
pub fn differences(one: &[u8], other: &[u8]) -> usize {
    one.iter().zip(other).filter(|(a, b)| a != b).count()
}

// Fields of levels

/// The cells of a word, or their levels.
pub type Word<T> = [T; 6];

/// The multipliers of the cells of a word.
const MULTIPLIERS: Word<usize> = [1, 5, 6, 11, 16, 21];

/// What a cell may change by, as the level read less the level written.
pub const CHANGES: [i32; 4] = [-1, 1, 2, 3];

/// The words of a shape: each class is cut into words of six cells, in the order of their positions.
pub fn words(shape: &Shape) -> Vec<Word<usize>> {
    let mut words = Vec::new();
    for class in classes(shape) {
        let mut left = class.as_slice();
        while let [a, b, c, d, e, f, rest @ ..] = left {
            words.push([*a, *b, *c, *d, *e, *f]);
            left = rest;
        }
    }
    words
}

/// The cells of the words that are not the first of their word, in byte order: they hold the payload.
pub fn digit_cells(words: &[Word<usize>]) -> Vec<usize> {
    let mut cells: Vec<usize> = words.iter().flat_map(|word| word[1..].to_vec()).collect();
    cells.sort();
    cells
}

/// The cells that belong to no word, in byte order.
pub fn ignored_cells(shape: &Shape) -> Vec<usize> {
    let mut ignored = vec![true; cells(shape)];
    for cell in words(shape).concat() {
        ignored[cell] = false;
    }
    (0..ignored.len()).filter(|&cell| ignored[cell]).collect()
}

/// A word is lawful when its cells, each times its multiplier, add up to a multiple of 25.
pub fn is_lawful(word: &Word<u8>) -> bool {
    let sum: usize = word.iter().zip(MULTIPLIERS).map(|(&level, multiplier)| multiplier * usize::from(level)).sum();
    sum % 25 == 0
}

/// Fills the first cell of a word, its check: each level is tried.
pub fn fill_check(word: &mut Word<u8>) {
    for level in 0..=MAX_LEVEL {
        word[0] = level;
        if is_lawful(word) {
            return;
        }
    }
    unreachable!("some level of the first cell makes the word lawful");
}

/// The lawful words of levels that a word may come from: the word as it is, and each change of each cell taken back.
pub fn lawful_words(read: &Word<u8>) -> Vec<Word<u8>> {
    let mut tried = vec![*read];
    for place in 0..6 {
        for change in CHANGES {
            let mut written = *read;
            let level = i32::from(read[place]) - change;
            if (0..=i32::from(MAX_LEVEL)).contains(&level) {
                written[place] = level as u8;
                tried.push(written);
            }
        }
    }
    tried.retain(is_lawful);
    tried
}

/// The levels of a word, taken out of a field.
fn take_word(field: &[u8], word: &Word<usize>) -> Word<u8> {
    word.map(|cell| field[cell])
}

/// The field of lawful words with the given digits; the cells that belong to no word are 0.
pub fn field_of_digits(shape: &Shape, digits: &[u8]) -> Vec<u8> {
    let (mut field, words) = (vec![0; cells(shape)], words(shape));
    let cells = digit_cells(&words);
    assert_eq!(digits.len(), cells.len());
    put_class(&mut field, &cells, digits);
    for word in &words {
        let mut levels = take_word(&field, word);
        fill_check(&mut levels);
        put_class(&mut field, word, &levels);
    }
    field
}

/// The field of the lawful words that the words stand for, with 0 in the cells that belong to none, if each stands for one.
fn lawful_field(words: &[Word<usize>], field: &[u8]) -> Option<Vec<u8>> {
    let mut lawful = vec![0; field.len()];
    for word in words {
        let found = lawful_words(&take_word(field, word));
        assert!(found.len() <= 1);
        put_class(&mut lawful, word, found.first()?);
    }
    Some(lawful)
}

// Operations

/// Plan: m, K, payload bytes, cells, the classes that hold at least one cell, and five digits for each word; 1, 2, 11.
pub fn plan(shape: &Shape) -> Result<Plan, Number> {
    test(shape)?;
    let capacity = data_cells(shape).len();
    let (classes, used) = (number_of_classes(shape), used_classes(shape));
    let digits = 5 * words(shape).len();
    Ok(Plan { classes, capacity, bytes: capacity / 8, cells: cells(shape), used, digits })
}

/// Class of a cell: 1, 2, 11, 4.
pub fn class_of(shape: &Shape, row: usize, plane: usize, column: usize) -> Result<usize, Number> {
    test(shape)?;
    if row >= shape.h || plane >= shape.d || column >= shape.w {
        return Err(4);
    }
    Ok(class_in(shape, row, plane, column))
}

/// Encode (write): 1, 2, 11, 3, 4.
pub fn encode(shape: &Shape, payload: &[u8], field: &mut [u8]) -> Result<(), Number> {
    let plan = plan(shape)?;
    if payload.len() != plan.bytes {
        return Err(3);
    }
    if field.len() != plan.cells {
        return Err(4);
    }
    field.copy_from_slice(&field_with(shape, payload, &written_padding(plan.capacity % 8)));
    Ok(())
}

/// The field of codewords in reach, its padding tested and left as it is, and its payload: 5, 10, 6, 7.
fn restore(shape: &Shape, field: &[u8]) -> Result<(Vec<u8>, Vec<u8>), Number> {
    if field.iter().any(|&cell| cell > ERASED) {
        return Err(5);
    }
    let classes = classes(shape);
    if classes.iter().any(|class| erasures(&take_class(field, class)) >= 3) {
        return Err(10);
    }
    let corrected = corrected_field(&classes, field).ok_or(6usize)?;
    let bits = take_class(&corrected, &data_cells(shape));
    let (payload, padding) = bits.split_at(bits.len() / 8 * 8);
    if !is_right_padding(padding) {
        return Err(7);
    }
    let payload = bytes_of(payload);
    Ok((corrected, payload))
}

/// Decode (read): fills the payload and gives the count of cells where the corrected field differs; 1, 2, 11, 3, 4, 5, 10, 6,
/// 7.
pub fn decode(shape: &Shape, payload: &mut [u8], field: &[u8]) -> Result<usize, Number> {
    let plan = plan(shape)?;
    if payload.len() != plan.bytes {
        return Err(3);
    }
    if field.len() != plan.cells {
        return Err(4);
    }
    let (corrected, bytes) = restore(shape, field)?;
    payload.copy_from_slice(&bytes);
    Ok(differences(&corrected, field))
}

/// Correct (mend): leaves the corrected field in the lent one and gives the count of cells changed; 1, 2, 11, 4, 5, 10, 6, 7.
pub fn correct(shape: &Shape, field: &mut [u8]) -> Result<usize, Number> {
    let plan = plan(shape)?;
    if field.len() != plan.cells {
        return Err(4);
    }
    let (corrected, _) = restore(shape, field)?;
    let count = differences(&corrected, field);
    field.copy_from_slice(&corrected);
    Ok(count)
}

/// Encode levels (shaded write): 1, 2, 11, 3, 4, 12.
pub fn encode_levels(shape: &Shape, payload: &[u8], field: &mut [u8]) -> Result<(), Number> {
    let plan = plan(shape)?;
    if payload.len() != plan.digits {
        return Err(3);
    }
    if field.len() != plan.cells {
        return Err(4);
    }
    if payload.iter().any(|&digit| digit > MAX_LEVEL) {
        return Err(12);
    }
    field.copy_from_slice(&field_of_digits(shape, payload));
    Ok(())
}

/// The lawful field that a field of levels stands for: 12, 6.
fn restore_levels(shape: &Shape, field: &[u8]) -> Result<Vec<u8>, Number> {
    if field.iter().any(|&cell| cell > MAX_LEVEL) {
        return Err(12);
    }
    lawful_field(&words(shape), field).ok_or(6)
}

/// Decode levels (shaded read): fills the payload and gives the count of cells of words where the lawful field differs; 1, 2, 11, 3,
/// 4, 12, 6.
pub fn decode_levels(shape: &Shape, payload: &mut [u8], field: &[u8]) -> Result<usize, Number> {
    let plan = plan(shape)?;
    if payload.len() != plan.digits {
        return Err(3);
    }
    if field.len() != plan.cells {
        return Err(4);
    }
    let lawful = restore_levels(shape, field)?;
    let words = words(shape);
    payload.copy_from_slice(&take_class(&lawful, &digit_cells(&words)));
    Ok(words.iter().map(|word| differences(&take_word(&lawful, word), &take_word(field, word))).sum())
}

/// Correct levels (shaded mend): leaves the lawful field in the lent one and gives the count of all cells changed; 1, 2, 11, 4, 12, 6.
pub fn correct_levels(shape: &Shape, field: &mut [u8]) -> Result<usize, Number> {
    let plan = plan(shape)?;
    if field.len() != plan.cells {
        return Err(4);
    }
    let lawful = restore_levels(shape, field)?;
    let count = differences(&lawful, field);
    field.copy_from_slice(&lawful);
    Ok(count)
}

/// The difference triples (row, plane, column) of absolute sum 1 to t − 1 whose first number that is not 0 is positive, in rising order
/// of row, then plane, then column.
fn triples(t: i64) -> impl Iterator<Item = (i64, i64, i64)> {
    let all = move || 1 - t..t;
    all()
        .flat_map(move |row| all().flat_map(move |plane| all().map(move |column| (row, plane, column))))
        .filter(move |&(row, plane, column)| (1..t).contains(&(row.abs() + plane.abs() + column.abs())))
        .filter(|&(row, plane, column)| [row, plane, column].into_iter().find(|&x| x != 0).is_some_and(|x| x > 0))
}

/// The distance test (the gauge): 2, 9.
pub fn distance_test(m: usize, b: usize, c: usize, t: usize) -> Result<Distance, Number> {
    if !(1..=18).contains(&t) {
        return Err(2);
    }
    if !(1..=4096).contains(&m) || b >= m || c >= m {
        return Err(9);
    }
    let (m, b, c) = (m as i64, b as i64, c as i64);
    let mut tried = 0;
    for (row, plane, column) in triples(t as i64) {
        tried += 1;
        if (column - b * row - c * plane) % m == 0 {
            return Ok(Distance { holds: false, row: row as i32, plane: plane as i32, column: column as i32, tried });
        }
    }
    Ok(Distance { holds: true, row: 0, plane: 0, column: 0, tried })
}

// Card text

/// The first lines: the numbers of a shape, and whether the sides of its window were given.
struct FirstLines {
    shape: Shape,
    sides_given: bool,
}

/// What follows the first lines.
enum Rest {
    Payload(Vec<u8>),
    Rows(Vec<u8>),
}

/// Takes one line `key=value` off the front of a text and gives the value; every line is ended by a line feed.
fn take_line<'a>(text: &mut &'a [u8], key: &str) -> Option<&'a [u8]> {
    let end = text.iter().position(|&byte| byte == b'\n')?;
    let (line, rest) = (&text[..end], &text[end + 1..]);
    let value = line.strip_prefix(key.as_bytes())?.strip_prefix(b"=")?;
    *text = rest;
    Some(value)
}

/// A decimal number with 1 to 5 digits and no needless leading zero.
fn number(value: &[u8]) -> Option<usize> {
    let form = (1..=5).contains(&value.len()) && value.iter().all(u8::is_ascii_digit) && (value.len() == 1 || value[0] != b'0');
    form.then(|| value.iter().fold(0, |n, &digit| n * 10 + (digit - b'0') as usize))
}

/// One lower-case hexadecimal digit.
fn hexadecimal(digit: u8) -> Option<u8> {
    b"0123456789abcdef".iter().position(|&d| d == digit).map(|value| value as u8)
}

/// Lower-case hexadecimal, two digits a byte, possibly empty.
fn payload_bytes(value: &[u8]) -> Option<Vec<u8>> {
    if value.len() % 2 != 0 {
        return None;
    }
    value.chunks(2).map(|pair| Some(hexadecimal(pair[0])? * 16 + hexadecimal(pair[1])?)).collect()
}

/// W digits 0, 1 or, for an erased cell, 2.
fn row_cells(value: &[u8], w: usize) -> Option<Vec<u8>> {
    let form = value.len() == w && value.iter().all(|digit| (b'0'..=b'2').contains(digit));
    form.then(|| value.iter().map(|&digit| digit - b'0').collect())
}

/// The numbers of the first lines: four, and both sides of a window where either line of them follows.
fn first_lines(text: &mut &[u8]) -> Option<FirstLines> {
    let w = number(take_line(text, "columns")?)?;
    let h = number(take_line(text, "rows")?)?;
    let d = number(take_line(text, "planes")?)?;
    let t = number(take_line(text, "strength")?)?;
    let sides_given = text.starts_with(b"window_rows=") || text.starts_with(b"window_columns=");
    let (mut p, mut q) = (0, 0);
    if sides_given {
        p = number(take_line(text, "window_rows")?)?;
        q = number(take_line(text, "window_columns")?)?;
    }
    Some(FirstLines { shape: Shape { w, h, d, t, p, q }, sides_given })
}

/// Either one `payload` or D × H lines `row`; nothing follows.
fn later_lines(mut text: &[u8], shape: &Shape) -> Option<Rest> {
    let rest = if text.starts_with(b"payload") {
        Rest::Payload(payload_bytes(take_line(&mut text, "payload")?)?)
    } else {
        let mut field = Vec::new();
        for _ in 0..shape.d * shape.h {
            field.extend(row_cells(take_line(&mut text, "row")?, shape.w)?);
        }
        Rest::Rows(field)
    };
    text.is_empty().then_some(rest)
}

/// The first lines, as they are printed again.
fn print_first_lines(lines: &FirstLines) -> String {
    let &Shape { w, h, d, t, p, q } = &lines.shape;
    let sides = if lines.sides_given { format!("window_rows={p}\nwindow_columns={q}\n") } else { String::new() };
    format!("columns={w}\nrows={h}\nplanes={d}\nstrength={t}\n{sides}")
}

/// The rows of a field, plane after plane.
fn print_rows(field: &[u8], w: usize) -> String {
    let row = |cells: &[u8]| cells.iter().map(|cell| char::from(b'0' + cell)).collect::<String>();
    field.chunks(w).map(|cells| format!("row={}\n", row(cells))).collect()
}

/// The output of the card program, or its refusal.
fn card_answer(input: &[u8]) -> Result<String, Number> {
    if input.len() > 65_536 {
        return Err(8);
    }
    let mut text = input;
    let first = first_lines(&mut text).ok_or(8usize)?;
    let shape = &first.shape;
    let plan = plan(shape)?;
    if plan.cells > 16_384 {
        return Err(8);
    }
    match later_lines(text, shape).ok_or(8usize)? {
        Rest::Payload(payload) => {
            let mut field = vec![0; plan.cells];
            encode(shape, &payload, &mut field)?;
            Ok(format!("{}classes={}\n{}", print_first_lines(&first), plan.classes, print_rows(&field, shape.w)))
        }
        Rest::Rows(field) => {
            let mut payload = vec![0; plan.bytes];
            let count = decode(shape, &mut payload, &field)?;
            let digits: String = payload.iter().map(|byte| format!("{byte:02x}")).collect();
            Ok(format!("{}mended={count}\npayload={digits}\n", print_first_lines(&first)))
        }
    }
}

/// The card program: from the bytes of its input to the bytes of its output.
pub fn card(input: &[u8]) -> Vec<u8> {
    match card_answer(input) {
        Ok(text) => text.into_bytes(),
        Err(number) => format!("refusal={number}\n").into_bytes(),
    }
}
