//! Erased cells, those that were not read: fields with some, and what must come of them.

use super::clusters::{any_place, bytes_of, grown, joined, Place};
use super::damage::{assert_refused, assert_undone, erased, written};
use super::reference::{self, ERASED};
use super::*;

/// How two clusters lie to one another.
#[derive(Clone, Copy, Debug, PartialEq)]
pub enum Lie {
    Apart,
    Touching,
    Overlapping,
}

/// Two clusters of at most t cells each; where a window rules, t is its smaller side. Those that touch have no cell in common, those that overlap have one;
/// those that are to lie apart start anywhere. Where the first cluster leaves no cell that touches it, the second is empty.
pub fn two_clusters(random: &mut Random, shape: &Numbers, lie: Lie) -> [Vec<Place>; 2] {
    let start = any_place(random, shape);
    let one = grown(random, shape, start, shape.extent(), &[]);
    let starts: Vec<Place> = match lie {
        Lie::Apart => vec![any_place(random, shape)],
        Lie::Touching => one.iter().flat_map(|&place| joined(shape, place)).filter(|place| !one.contains(place)).collect(),
        Lie::Overlapping => one.clone(),
    };
    let taken: &[Place] = if lie == Lie::Touching { &one } else { &[] };
    let size = random.from(1, shape.extent());
    let other = if starts.is_empty() {
        Vec::new()
    } else {
        let start = random.pick(&starts);
        grown(random, shape, start, size, taken)
    };
    [one, other]
}

/// The cells of two clusters, as bytes of the field.
fn cells_of_two(random: &mut Random, shape: &Numbers, lie: Lie) -> Vec<usize> {
    bytes_of(shape, &two_clusters(random, shape, lie).concat())
}

/// Have two clusters a cell in common, and are cells of them joined?
fn lie_of(shape: &Numbers, [one, other]: &[Vec<Place>; 2]) -> Lie {
    if one.iter().any(|place| other.contains(place)) {
        Lie::Overlapping
    } else if one.iter().any(|&place| joined(shape, place).iter().any(|place| other.contains(place))) {
        Lie::Touching
    } else {
        Lie::Apart
    }
}

/// The classes of a shape that have at least n cells.
fn classes_of_size(shape: &Numbers, n: usize) -> Vec<Vec<usize>> {
    reference::classes(shape).into_iter().filter(|class| class.len() >= n).collect()
}

/// Different cells of one class, n where some class has as many; else none.
pub fn of_one_class(random: &mut Random, shape: &Numbers, n: usize) -> Vec<usize> {
    let classes = classes_of_size(shape, n);
    if classes.is_empty() {
        return Vec::new();
    }
    let mut class = classes[random.below(classes.len())].clone();
    (0..n).map(|_| class.swap_remove(random.below(class.len()))).collect()
}

/// Erases cells of a field: one, a cluster or two, some of a class, the padding, or cells by chance.
pub fn erase_some(random: &mut Random, shape: &Numbers, field: &mut [u8]) {
    let lie = random.pick(&[Lie::Apart, Lie::Touching, Lie::Overlapping]);
    let cells = match random.below(10) {
        0 => vec![random.below(field.len())],
        1 => hole(random, shape),
        2..=5 => cells_of_two(random, shape, lie),
        6 | 7 => {
            let n = random.from(1, 4);
            of_one_class(random, shape, n)
        }
        8 => padding::cells(shape),
        _ => (0..random.from(1, field.len())).map(|_| random.below(field.len())).collect(),
    };
    for cell in cells {
        field[cell] = ERASED;
    }
}

/// A whole field with two clusters erased, as they may lie, then two and three cells of a class, against the reference.
pub fn compare_erased<C: Codec>(random: &mut Random, shape: &Numbers, field: &[u8], tally: &mut Tally) {
    let bytes = shape.plan().unwrap().bytes;
    let clusters = [Lie::Apart, Lie::Touching, Lie::Overlapping].map(|lie| cells_of_two(random, shape, lie));
    let of_a_class = [2, 3].map(|n| of_one_class(random, shape, n));
    for cells in clusters.into_iter().chain(of_a_class) {
        let damaged = erased(field, &cells);
        compare_decode::<C>(shape, &random.bytes(bytes), &damaged, tally);
        compare_correct::<C>(shape, &damaged, tally);
    }
}

/// Any cells of any two clusters of at most t cells each are filled, and counted once: clusters apart, touching and overlapping.
pub fn fill_two_clusters<C: Codec>(times: usize) {
    let mut random = outside::random(12);
    let (mut tally, mut lies) = (Tally::default(), [0; 3]);
    for round in 0..outside::rounds(times) {
        let shape = lawful_shape(&mut random, C::WINDOWS);
        let (payload, field) = written::<C>(&mut random, &shape);
        let lie = [Lie::Apart, Lie::Touching, Lie::Overlapping][round % 3];
        let clusters = two_clusters(&mut random, &shape, lie);
        lies[lie_of(&shape, &clusters) as usize] += 1;
        let cells = some_of(&mut random, &bytes_of(&shape, &clusters.concat()));
        assert_undone::<C>(&mut random, &shape, &payload, &field, &erased(&field, &cells));
        tally.note(&shape, 0);
    }
    println!("two clusters: {lies:?} lie apart, touch and overlap");
    assert!(lies.iter().all(|&times| times >= 1000) || outside::fewer());
    tally.assert_stacks("two clusters");
}

/// Any one or two cells of each class are filled, and three of one class are refused with 10, whatever the others hold.
pub fn erase_classes<C: Codec>(times: usize) {
    let mut random = outside::random(13);
    let mut refused = 0;
    for _ in 0..outside::rounds(times) {
        let shape = lawful_shape(&mut random, C::WINDOWS);
        let (payload, field) = written::<C>(&mut random, &shape);
        let mut damaged = field.clone();
        for class in reference::classes(&shape).iter().filter(|class| !class.is_empty()) {
            damaged[random.pick(class)] = ERASED;
            damaged[random.pick(class)] = ERASED;
        }
        assert_undone::<C>(&mut random, &shape, &payload, &field, &damaged);
        let n = random.from(3, 5);
        let three = of_one_class(&mut random, &shape, n);
        if three.is_empty() {
            continue;
        }
        refused += 1;
        assert_refused::<C>(&mut random, &shape, &erased(&field, &three), 10);
        // 10 before 6 and 7, and after 5.
        let mut garbage = erased(&random.bits(field.len()), &three);
        assert_refused::<C>(&mut random, &shape, &garbage, 10);
        let cell = random.below(garbage.len());
        garbage[cell] = random.pick(&[3, 4, 127, 128, 254, 255]);
        assert_refused::<C>(&mut random, &shape, &garbage, 5);
    }
    println!("three of a class: {refused}");
    assert!(refused >= 100 || outside::fewer());
}

/// Erased padding is filled with what it was, and 7 looks at it after filling.
pub fn erase_padding<C: Codec>(times: usize) {
    let mut random = outside::random(14);
    let (mut filled, mut refused) = (0, 0);
    for _ in 0..outside::rounds(times) {
        let shape = lawful_shape(&mut random, C::WINDOWS);
        let (cells, classes) = (padding::cells(&shape), reference::classes(&shape));
        if cells.is_empty() || classes.iter().any(|class| class.iter().filter(|cell| cells.contains(cell)).count() > 2) {
            continue;
        }
        let (payload, field) = written::<C>(&mut random, &shape);
        assert_undone::<C>(&mut random, &shape, &payload, &field, &erased(&field, &cells));
        filled += 1;
        let any = random.bits(cells.len());
        if !padding::is_right(&any) {
            let field = reference::field_with(&shape, &payload, &any);
            assert_refused::<C>(&mut random, &shape, &erased(&field, &cells), 7);
            refused += 1;
        }
    }
    println!("padding: {filled} filled, {refused} refused");
    assert!(filled >= 100 && refused >= 100 || outside::fewer());
}

/// Erased cells beside a flipped one. In another class each is undone. In the same class nothing is corrected: it is refused with
/// 6 or, now and then, read as another codeword, which has the flipped cell as it is.
pub fn erase_beside_a_flip<C: Codec>(times: usize) {
    let mut random = outside::random(15);
    let [mut apart, mut same, mut tally] = [(); 3].map(|()| Tally::default());
    for _ in 0..outside::rounds(times) {
        let shape = lawful_shape(&mut random, C::WINDOWS);
        let (payload, field) = written::<C>(&mut random, &shape);
        let n = random.from(2, 3);
        let mut cells = of_one_class(&mut random, &shape, n);
        let Some(flipped) = cells.pop() else {
            continue;
        };
        let mut damaged = erased(&field, &cells);
        damaged[flipped] ^= 1;
        compare_decode::<C>(&shape, &payload, &damaged, &mut same);
        compare_correct::<C>(&shape, &damaged, &mut tally);
        damaged[flipped] ^= 1;
        let classes = reference::classes(&shape);
        let others: Vec<usize> = classes.into_iter().filter(|class| !class.contains(&flipped)).flatten().collect();
        if !others.is_empty() {
            damaged[random.pick(&others)] ^= 1;
            assert_undone::<C>(&mut random, &shape, &payload, &field, &damaged);
            apart.note(&shape, 0);
        }
    }
    println!("beside a flip: {:?} in the same class, {:?} in another", same.numbers, apart.numbers);
    let often = same.numbers[6] > same.numbers[0] && same.numbers[0] >= 100 && apart.numbers[0] >= 100;
    assert!(often || outside::fewer());
}
