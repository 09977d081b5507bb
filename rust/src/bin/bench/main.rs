//! The benchmark: encode, decode and correct of the proved library, of its text as Rust, of the fastest plain Rust and of
//! liquid-dsp, and a copy of the cells, all in one run and by turns. Each figure is a median; decode and correct get a field
//! with a hole of t cells. Fields of levels are measured in the same way, without liquid-dsp, and also with a change in every word.

mod contest;
mod levels;
mod liquid;
#[path = "../../../others/plain/mod.rs"]
mod plain;
mod program;
#[path = "../../../others/same.rs"]
mod same;
mod turns;

use contest::Card;
use levels::Levels;
use turns::Standing;
use varmintfoil::Window;

/// Columns, rows, planes and strength of the fields measured.
const FIELDS: [[usize; 4]; 8] = [
    [256, 256, 1, 3],
    [256, 256, 1, 8],
    [256, 256, 1, 16],
    [256, 256, 1, 32],
    [64, 64, 16, 6],
    [128, 128, 1, 8],
    [32, 32, 1, 3],
    [16, 16, 4, 4],
];

/// The strength of the growth table.
const GROWTH: usize = 8;

fn name([w, h, d, _]: [usize; 4]) -> String {
    if d == 1 {
        format!("{w} x {h}")
    } else {
        format!("{w} x {h} x {d}")
    }
}

/// A figure, or a dash where there is none.
fn figure(value: Option<f64>, width: usize, digits: usize) -> String {
    value.map_or(format!("{:>width$}", "-"), |value| format!("{value:>width$.digits$}"))
}

/// One row: nanoseconds for each byte of payload or for each cell, then the proved library's time divided by each other's.
fn print_row(field: [usize; 4], operation: &str, bytes: usize, standings: &[Option<Standing>]) {
    print!("{:<13} {:>2} {operation:<8}", name(field), field[3]);
    for standing in standings {
        print!("{}", figure(standing.map(|standing| standing.time / bytes as f64), 8, 2));
    }
    print!(" |");
    for standing in &standings[1..] {
        print!("{}", figure(standing.map(|standing| standing.ratio), 8, 2));
    }
    println!();
}

fn print_fields() {
    println!("{:<13} {:>2} {:<8}{:>40} |{:>32}", "field", "t", "", "nanoseconds for a byte of payload", "proved /");
    println!(
        "{:<13} {:>2} {:<8}{:>8}{:>8}{:>8}{:>8}{:>8} |{:>8}{:>8}{:>8}{:>8}",
        "", "", "", "proved", "same", "plain", "liquid", "copy", "same", "plain", "liquid", "copy"
    );
    for field in FIELDS {
        let [w, h, d, t] = field;
        let card = Card::new(w, h, d, t);
        for (operation, standings) in card.operations() {
            print_row(field, operation, card.shape.payload_bytes(), &standings);
        }
    }
}

fn print_growth() {
    println!(
        "Growth at t = {GROWTH}, proved: microseconds for a call, and the factor for four times the cells, where 4 is linear:"
    );
    println!("{:<10} {:>9} {:>7} {:>9} {:>7} {:>9} {:>7}", "field", "encode", "", "decode", "", "correct", "");
    let mut all: Vec<[f64; 3]> = Vec::new();
    for side in [32, 64, 128, 256] {
        let times = Card::new(side, side, 1, GROWTH).operations().map(|(_, standings)| standings[0].unwrap().time);
        print!("{:<10}", format!("{side} x {side}"));
        for (i, time) in times.iter().enumerate() {
            let factor = all.last().map(|before| time / before[i]);
            print!(" {:>9.2} {}", time / 1000.0, factor.map_or(format!("{:>7}", ""), |factor| figure(Some(factor), 7, 2)));
        }
        println!();
        all.push(times);
    }
    print!("{:<10}", "in all");
    for (first, last) in all[0].iter().zip(all[all.len() - 1]) {
        print!(" {:>9} {:>7.1}", "", last / first);
    }
    println!("   (64 times the cells)");
}

fn print_erased() {
    println!("Two holes of t erased cells, beside one of t flipped cells: the ratio of the times, proved.");
    println!("{:<13} {:>2} {:>8} {:>8}", "field", "t", "decode", "correct");
    for field in FIELDS {
        let [w, h, d, t] = field;
        let ratios = Card::new(w, h, d, t).erased().map(|standing| figure(Some(standing.ratio), 8, 2));
        println!("{:<13} {t:>2} {}", name(field), ratios.join(" "));
    }
}

/// Columns, rows and window of a field, and the strength that it is measured beside.
const WINDOWS: [(usize, usize, Window, usize); 4] = [
    (256, 256, Window { rows: 3, columns: 3 }, 3),
    (256, 256, Window { rows: 8, columns: 8 }, 8),
    (256, 256, Window { rows: 22, columns: 22 }, 22),
    (32, 32, Window { rows: 3, columns: 3 }, 3),
];

fn print_windows() {
    println!("A field that a window rules, beside the same at strength t: the ratio of the times, proved.");
    println!("{:<13} {:<8} {:>2} {:>8} {:>8} {:>8}", "field", "window", "t", "encode", "decode", "correct");
    for (w, h, window, t) in WINDOWS {
        let ratios = Card::with_window(w, h, window).beside(&Card::new(w, h, 1, t));
        let ratios = ratios.map(|standing| figure(Some(standing.ratio), 8, 2));
        let sides = format!("{} x {}", window.rows, window.columns);
        println!("{:<13} {sides:<8} {t:>2} {}", name([w, h, 1, t]), ratios.join(" "));
    }
}

/// The fields of levels measured: one of the largest, and a small one.
const LEVELS: [[usize; 4]; 2] = [[256, 256, 1, 8], [32, 32, 1, 3]];

fn print_levels() {
    println!("Fields of levels: of each, three rows with a hole of t cells, then two with a change in every word.");
    println!("{:<13} {:>2} {:<8}{:>32} |{:>24}", "field", "t", "", "nanoseconds for a cell", "proved /");
    println!(
        "{:<13} {:>2} {:<8}{:>8}{:>8}{:>8}{:>8} |{:>8}{:>8}{:>8}",
        "", "", "", "proved", "same", "plain", "copy", "same", "plain", "copy"
    );
    for field in LEVELS {
        let (hole, faults) = (Levels::with_hole(field), Levels::with_faults(field));
        for (operation, standings) in hole.operations().into_iter().chain(faults.mending()) {
            print_row(field, operation, hole.shape.cells(), &standings);
        }
    }
}

fn main() {
    println!("Medians. proved: the proved library; same: its text as Rust; plain: the fastest plain Rust; liquid: liquid-dsp,");
    println!("SECDED(72,64) with interleaver; copy: a copy of the cells.");
    if !liquid::LINKED {
        println!(
            "liquid-dsp is left out: it was not there at the build (Debian: libliquid-dev; then touch build.rs and build again)."
        );
    }
    println!();
    print_fields();
    println!();
    print_growth();
    println!();
    print_erased();
    println!();
    print_windows();
    println!();
    print_levels();
    println!();
    program::print();
}
