//! The header and the archive from C and C++: programs are compiled strictly, linked and run, and the archive is looked into.

use std::ffi::OsString;
use std::io::Write;
use std::path::{Path, PathBuf};
use std::process::{Command, Output, Stdio};

const ARCHIVE: &str = env!("VARMINTFOIL_ARCHIVE");

fn root() -> &'static Path {
    Path::new(env!("CARGO_MANIFEST_DIR")).parent().unwrap()
}

/// A file of the tests' own folder.
fn scratch(name: &str) -> PathBuf {
    Path::new(env!("CARGO_TARGET_TMPDIR")).join(name)
}

fn text(bytes: &[u8]) -> String {
    String::from_utf8_lossy(bytes).into_owned()
}

/// A language that the header is for.
#[derive(Clone, Copy)]
enum Language {
    C,
    Cpp,
}

impl Language {
    /// Its compiler, which a variable may name, and what the compiler calls it.
    fn compiler(self) -> (OsString, &'static str) {
        let (variable, usual, name) = match self {
            Language::C => ("CC", "cc", "c"),
            Language::Cpp => ("CXX", "c++", "c++"),
        };
        (std::env::var_os(variable).unwrap_or_else(|| usual.into()), name)
    }

    /// Compiles a program that is handed over as text.
    fn compile(self, standard: &str, source: &str, program: &Path, arguments: &[&str]) -> Output {
        let (compiler, name) = self.compiler();
        let mut run = Command::new(&compiler)
            .args([&format!("-std={standard}"), "-Wall", "-Wextra", "-pedantic", "-I"])
            .arg(root().join("include"))
            .args(["-x", name, "-", "-x", "none", "-o"])
            .arg(program)
            .args(arguments)
            .stdin(Stdio::piped())
            .stdout(Stdio::piped())
            .stderr(Stdio::piped())
            .spawn()
            .unwrap_or_else(|error| panic!("the compiler {compiler:?}: {error}"));
        writeln!(run.stdin.take().unwrap(), "{source}").unwrap();
        run.wait_with_output().unwrap()
    }

    /// What a program prints that compiles with no warning, links and ends well.
    fn run(self, standard: &str, source: &str, name: &str, arguments: &[&str]) -> String {
        let program = scratch(&format!("{name}-{standard}"));
        let compiled = self.compile(standard, source, &program, &[&["-Werror"], arguments].concat());
        assert!(compiled.status.success(), "{standard}: {}", text(&compiled.stderr));
        let run = Command::new(&program).output().unwrap();
        assert!(run.status.success(), "{standard}: {}", text(&run.stdout));
        text(&run.stdout)
    }
}

/// The standards to try a program in; those of C++ only where there is a C++ compiler.
fn standards(c: &'static [&str], cpp: &'static [&str]) -> Vec<(Language, &'static str)> {
    let compiler = Language::Cpp.compiler().0;
    let there = Command::new(&compiler).arg("--version").output().is_ok();
    if !there && !cpp.is_empty() {
        eprintln!("skipped {cpp:?}: there is no C++ compiler {compiler:?}");
    }
    let cpp = cpp.iter().filter(|_| there).map(|&standard| (Language::Cpp, standard));
    c.iter().map(|&standard| (Language::C, standard)).chain(cpp).collect()
}

fn source(name: &str) -> String {
    std::fs::read_to_string(root().join("rust/c").join(name)).unwrap()
}

#[test]
fn the_smoke_test() {
    for (language, standard) in standards(&["c99", "c11"], &["c++20"]) {
        assert_eq!(language.run(standard, &source("smoke.c"), "smoke", &["-O1", ARCHIVE]), "the worked card holds\n");
    }
}

/// The program in C and the example in Rust tell damage beyond the promise, in the same words.
#[test]
fn beyond_the_promise() {
    let expected = "one hole: abcdefghijklmnopqrstuvwxyz, 4 cells flipped, within the promise\n\
                    two holes: abcdefkhejklmnopqrstuzwtyz, 4 cells flipped, beyond the promise\n";
    for (language, standard) in standards(&["c99", "c11"], &["c++20"]) {
        assert_eq!(language.run(standard, &source("beyond.c"), "beyond", &["-O1", ARCHIVE]), expected);
    }
    let example = Command::new(env!("CARGO"))
        .args(["run", "--release", "--offline", "--quiet", "--example", "beyond"])
        .current_dir(env!("CARGO_MANIFEST_DIR"))
        .output()
        .unwrap();
    assert_eq!(text(&example.stdout), expected, "{}", text(&example.stderr));
}

/// The bounds of the program's test, in each direction of a stack of strength 3: at most 3 cells, any two less than 3 apart. And in a
/// field that a window of 2 by 3 rules: its corners, a row too far, a column too far, the whole window, a cell more.
#[test]
fn the_bounds_of_the_promise() {
    let source = r#"
        #define main the_program
        #include "../rust/c/beyond.c"
        #undef main
        static void flipped(size_t count, const size_t *cells) {
            varmintfoil_shape_t cube = VARMINTFOIL_SHAPE(.columns = 9, .rows = 9, .planes = 9, .strength = 3);
            uint8_t before[729] = {0}, after[729] = {0};
            for (size_t i = 0; i < 3 * count; i += 3) {
                after[(cells[i + 1] * 9 + cells[i]) * 9 + cells[i + 2]] = 1;
            }
            printf("%d", within_promise(cube, before, after));
        }
        static void flipped_by_window(size_t count, const size_t *cells) {
            varmintfoil_shape_t flat =
                VARMINTFOIL_SHAPE(.columns = 9, .rows = 9, .planes = 1, .window_rows = 2, .window_columns = 3);
            uint8_t before[81] = {0}, after[81] = {0};
            for (size_t i = 0; i < count; i++) {
                after[cells[i]] = 1;
            }
            printf("%d", within_promise(flat, before, after));
        }
        int main(void) {
            static const size_t window[7] = {40, 51, 41, 42, 49, 50, 52}, down[2] = {40, 58}, right[2] = {40, 43};
            static const size_t near[3][6] = {{4, 4, 4, 4, 4, 6}, {4, 4, 4, 4, 6, 4}, {4, 4, 4, 6, 4, 4}};
            static const size_t far[3][6] = {{4, 4, 4, 4, 4, 7}, {4, 4, 4, 4, 7, 4}, {4, 4, 4, 7, 4, 4}};
            static const size_t aslant[6] = {4, 4, 4, 5, 5, 3}, next_line[6] = {4, 4, 8, 5, 4, 0};
            static const size_t square[12] = {4, 4, 4, 4, 4, 5, 5, 4, 4, 5, 4, 5}, ends[9] = {4, 4, 3, 4, 4, 5, 4, 4, 7};
            for (size_t i = 0; i < 3; i++) {
                flipped(2, near[i]);
                flipped(2, far[i]);
            }
            flipped(2, aslant);
            flipped(2, next_line);
            flipped(0, square);
            flipped(3, square);
            flipped(4, square);
            flipped(3, ends);
            flipped_by_window(0, window);
            flipped_by_window(2, window);
            flipped_by_window(2, down);
            flipped_by_window(2, right);
            flipped_by_window(6, window);
            flipped_by_window(7, window);
            return 0;
        }
    "#;
    for (language, standard) in standards(&["c99"], &["c++20"]) {
        assert_eq!(language.run(standard, source, "bounds", &["-O1", ARCHIVE]), "101010001100110010");
    }
}

/// Before C++20 a shape is made with all members 0, and its members are set by their names.
#[test]
fn a_shape_before_cpp20() {
    let source = r#"
        #include "varmintfoil.h"
        int main() {
            varmintfoil_shape_t shape = varmintfoil_shape_t();
            shape.columns = 5;
            shape.rows = 5;
            if (varmintfoil_plan(shape).number != VARMINTFOIL_BAD_SIZE) return 1;
            shape.planes = 1;
            shape.strength = 3;
            if (varmintfoil_plan(shape).bytes != 1) return 1;
            shape.strength = 0;
            shape.window_rows = 2;
            if (varmintfoil_plan(shape).number != VARMINTFOIL_BAD_WINDOW) return 1;
            shape.window_columns = 3;
            return varmintfoil_plan(shape).classes == 6 ? 0 : 1;
        }
    "#;
    for (language, standard) in standards(&[], &["c++98", "c++11", "c++14", "c++17"]) {
        language.run(standard, source, "by-names", &[ARCHIVE]);
    }
}

/// Members that are left out bring no warning, so that old calls compile as they are when a member is added.
#[test]
fn a_member_left_out() {
    let source = r#"
        #include "varmintfoil.h"
        int main(void) {
            varmintfoil_shape_t shape = VARMINTFOIL_SHAPE(.columns = 5, .rows = 5);
            if (shape.columns != 5 || shape.rows != 5 || shape.planes != 0 || shape.strength != 0) return 1;
            return shape.window_rows == 0 && shape.window_columns == 0 ? 0 : 1;
        }
    "#;
    for (language, standard) in standards(&["c99"], &["c++20"]) {
        language.run(standard, source, "left-out", &[]);
    }
}

/// Each of the nine functions, called and dropped.
#[test]
fn a_dropped_answer() {
    let source = r#"
        #include "varmintfoil.h"
        void drop(varmintfoil_shape_t shape, uint8_t *payload, uint8_t *field);
        void drop(varmintfoil_shape_t shape, uint8_t *payload, uint8_t *field) {
            varmintfoil_plan(shape);
            varmintfoil_class(shape, 0, 0, 0);
            varmintfoil_encode(shape, payload, 1, field, 25);
            varmintfoil_decode(shape, payload, 1, field, 25);
            varmintfoil_correct(shape, field, 25);
            varmintfoil_encode_levels(shape, payload, 0, field, 25);
            varmintfoil_decode_levels(shape, payload, 0, field, 25);
            varmintfoil_correct_levels(shape, field, 25);
            varmintfoil_distance_test(7, 2, 3, 3);
        }
    "#;
    for (language, standard) in standards(&["c99"], &["c++14", "c++17"]) {
        let compiled = language.compile(standard, source, &scratch(&format!("dropped-{standard}.o")), &["-c"]);
        let warnings = text(&compiled.stderr).matches("warning: ignoring return value").count();
        assert_eq!(warnings, 9, "{standard}: {}", text(&compiled.stderr));
    }
}

/// The names of a listing of `nm -P`, each with the letter of its kind.
fn symbols(file: &Path) -> Vec<(String, String)> {
    let listing = Command::new("nm").arg("-P").arg(file).output().expect("nm");
    assert!(listing.status.success(), "{}", text(&listing.stderr));
    let lines = text(&listing.stdout);
    lines.lines().filter_map(|line| line.split_once(' ')).map(|(name, rest)| (name.into(), rest[..1].into())).collect()
}

/// The names of one kind among symbols, in order.
fn of_kind<'a>(symbols: &'a [(String, String)], kind: &str) -> Vec<&'a str> {
    let mut names: Vec<&str> = symbols.iter().filter(|symbol| symbol.1 == kind).map(|symbol| symbol.0.as_str()).collect();
    names.sort_unstable();
    names
}

/// The nine functions, in the order of their names.
const FUNCTIONS: [&str; 9] = [
    "varmintfoil_class",
    "varmintfoil_correct",
    "varmintfoil_correct_levels",
    "varmintfoil_decode",
    "varmintfoil_decode_levels",
    "varmintfoil_distance_test",
    "varmintfoil_encode",
    "varmintfoil_encode_levels",
    "varmintfoil_plan",
];

/// An object that calls each function needs no library: the header is that of freestanding C and C++, and the names are C's in
/// both.
#[test]
fn freestanding() {
    let source = r#"
        #include "varmintfoil.h"
        size_t all(varmintfoil_shape_t shape, uint8_t *payload, uint8_t *field);
        size_t all(varmintfoil_shape_t shape, uint8_t *payload, uint8_t *field) {
            varmintfoil_plan_t plan = varmintfoil_plan(shape);
            size_t sum = plan.number;
            sum += varmintfoil_class(shape, 0, 0, 0).number;
            sum += varmintfoil_encode(shape, payload, plan.bytes, field, plan.cells);
            sum += varmintfoil_decode(shape, payload, plan.bytes, field, plan.cells).number;
            sum += varmintfoil_correct(shape, field, plan.cells).number;
            sum += varmintfoil_encode_levels(shape, payload, plan.digits, field, plan.cells);
            sum += varmintfoil_decode_levels(shape, payload, plan.digits, field, plan.cells).number;
            sum += varmintfoil_correct_levels(shape, field, plan.cells).number;
            return sum + varmintfoil_distance_test(7, 2, 3, 3).number;
        }
    "#;
    for (language, standard) in standards(&["c99", "c11"], &["c++98", "c++11", "c++14", "c++17", "c++20"]) {
        let object = scratch(&format!("freestanding-{standard}.o"));
        let compiled = language.compile(standard, source, &object, &["-Werror", "-ffreestanding", "-nostdlib", "-O1", "-c"]);
        assert!(compiled.status.success(), "{standard}: {}", text(&compiled.stderr));
        assert_eq!(of_kind(&symbols(&object), "U"), FUNCTIONS, "{standard}");
    }
}

/// A program that needs libffi, where there is one, can link this archive too, by its name.
#[test]
fn beside_libffi() {
    let source = r#"
        #include <ffi.h>
        #include "varmintfoil.h"
        int main(void) {
            ffi_cif cif;
            varmintfoil_shape_t shape = VARMINTFOIL_SHAPE(.columns = 5, .rows = 5, .planes = 1, .strength = 3);
            if (ffi_prep_cif(&cif, FFI_DEFAULT_ABI, 0, &ffi_type_void, NULL) != FFI_OK) return 1;
            return CALL == 5 ? 0 : 1;
        }
    "#;
    let alone = source.replace("CALL", "shape.rows");
    if !Language::C.compile("c99", &alone, &scratch("libffi-alone"), &["-lffi"]).status.success() {
        eprintln!("skipped: there is no libffi");
        return;
    }
    let folder = format!("-L{}", Path::new(ARCHIVE).parent().unwrap().display());
    let both = source.replace("CALL", "varmintfoil_plan(shape).classes");
    Language::C.run("c99", &both, "beside-libffi", &[&folder, "-lffi", "-lvarmintfoil"]);
    Language::C.run("c99", &both, "before-libffi", &[&folder, "-lvarmintfoil", "-lffi"]);
}

/// The archive has the nine functions, needs memset and nothing else, and has no data but constants.
#[test]
fn the_symbols() {
    let symbols = symbols(Path::new(ARCHIVE));
    assert_eq!(of_kind(&symbols, "T"), FUNCTIONS);
    assert_eq!(of_kind(&symbols, "U"), ["memset"]);
    assert!(symbols.iter().all(|(_, kind)| "TtrU".contains(kind)), "{symbols:?}");
    let sizes = text(&Command::new("size").arg(ARCHIVE).output().expect("size").stdout);
    let figures: Vec<&str> = sizes.lines().nth(1).unwrap().split_whitespace().collect();
    assert_eq!(figures[1..3], ["0", "0"], "no initialised data and none that starts as 0: {sizes}");
}

/// The number of bytes in a row of docs/C-INTERFACE.md.
fn written(row: &str) -> usize {
    let document = std::fs::read_to_string(root().join("docs/C-INTERFACE.md")).unwrap();
    let cell = document.lines().find_map(|line| line.strip_prefix(&format!("| {row} | "))?.split_once(" bytes"));
    cell.unwrap_or_else(|| panic!("the document has a row of bytes for {row}")).0.replace(',', "").parse().unwrap()
}

/// The archive's size is about what is written.
#[test]
fn the_size() {
    let (size, written) = (std::fs::metadata(ARCHIVE).unwrap().len() as usize, written("size"));
    assert!(size.abs_diff(written) <= 512, "the archive has {size} bytes, and {written} are written");
}

/// The stack of each function is what is written or a little less.
#[test]
fn the_stack() {
    let printed = Language::C.run("gnu99", &source("stack.c"), "stack", &["-O0", ARCHIVE]);
    assert_eq!(printed.lines().count(), FUNCTIONS.len());
    for line in printed.lines() {
        let (function, taken) = line.split_once(' ').unwrap();
        let (taken, written): (usize, usize) = (taken.parse().unwrap(), written(&format!("`{function}`")));
        assert!(taken <= written && written <= taken + 64, "{function} takes {taken} bytes, and {written} are written");
    }
}
