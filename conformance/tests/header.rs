//! The C header: it compiles as C99, C11 and C++17, its constants are those of
//! the Rust version, its functions have the types that are called here, and a
//! compiler warns of unused results and of nulls.

use std::fs;
use std::path::{Path, PathBuf};
use std::process::Command;

use wickslate_conformance::header::{declared, text};
use wickslate_conformance::make::block_bytes;
use wickslate_reference as reference;
use wickslate_reference::VARIANTS;

/// Declares every function again: a different type would be an error.
const PROTOTYPES: &str = "
#ifdef __cplusplus
extern \"C\" {
#endif
uint32_t wickslate_start(wickslate_hasher *, uint32_t);
uint32_t wickslate_update(wickslate_hasher *, const uint8_t *, size_t);
uint32_t wickslate_update_bits(wickslate_hasher *, const uint8_t *, size_t, uint32_t);
uint32_t wickslate_finish(wickslate_hasher *);
uint32_t wickslate_digest(const wickslate_hasher *, uint8_t *, size_t);
uint32_t wickslate_end_state(const wickslate_hasher *, uint8_t *, size_t);
uint32_t wickslate_hash(uint32_t, const uint8_t *, size_t, uint32_t, uint8_t *, size_t);
uint32_t wickslate_hash_bits(uint32_t, const uint8_t *, size_t, uint32_t, uint32_t, uint8_t *, size_t);
uint32_t wickslate_permute(uint32_t, uint8_t *, size_t);
uint32_t wickslate_unpermute(uint32_t, uint8_t *, size_t);
void wickslate_lesamnta_encrypt(const uint8_t[16], uint8_t[32]);
void wickslate_lesamnta_decrypt(const uint8_t[16], uint8_t[32]);
uint32_t wickslate_recover(uint32_t, const uint8_t *, size_t, size_t, const uint8_t *, size_t,
                           uint8_t *, size_t);
uint32_t wickslate_recover_bits(uint32_t, const uint8_t *, size_t, uint32_t, size_t,
                                const uint8_t *, size_t, uint8_t *, size_t);
uint32_t wickslate_entry(const uint8_t *, size_t, size_t, uint32_t *, uint32_t *);
uint32_t wickslate_advance(wickslate_cursor *, uint32_t *, uint32_t *);
uint32_t wickslate_check_entry(const uint8_t *, size_t, const uint8_t *, size_t, size_t);
uint32_t wickslate_hash_list(uint32_t, const uint8_t *, size_t, const uint8_t *, size_t,
                               uint32_t, uint8_t *, size_t);
uint32_t wickslate_check_manifest(const uint8_t *, size_t);
#ifdef __cplusplus
}
#endif
";

/// An answer that names entry 511, taken apart.
const ANSWER: &str = "
typedef char number[WICKSLATE_NUMBER(0x1ff0a) == WICKSLATE_MISORDERED ? 1 : -1];
typedef char entry[WICKSLATE_ENTRY(0x1ff0a) == WICKSLATE_MAX_ENTRIES - 1 ? 1 : -1];
";

/// Every constant of the header, with the value that it must have.
fn constants() -> Vec<(String, usize)> {
    let mut constants = Vec::new();
    for variant in &VARIANTS {
        let name = variant.name.to_uppercase().replace('-', "_");
        constants.push((name.clone(), variant.number as usize));
        constants.push((format!("{name}_DIGEST_BYTES"), variant.digest_bytes()));
        constants.push((format!("{name}_IMAGE_BYTES"), variant.image_bytes()));
        constants.push((format!("{name}_BLOCK_BYTES"), block_bytes(variant)));
    }
    for (name, number) in [
        ("DONE", reference::DONE),
        ("UNKNOWN_VARIANT", reference::UNKNOWN_VARIANT),
        ("MALFORMED", reference::MALFORMED),
        ("WRONG_STAGE", reference::WRONG_STAGE),
        ("TOO_LONG", reference::TOO_LONG),
        ("OUTPUT_TOO_SHORT", reference::OUTPUT_TOO_SHORT),
        ("BAD_IMAGE", reference::BAD_IMAGE),
        ("OUT_OF_RANGE", reference::OUT_OF_RANGE),
        ("NO_BLOCK", reference::NO_BLOCK),
        ("BAD_LIST", reference::BAD_LIST),
        ("MISORDERED", reference::MISORDERED),
        ("PAST_END", reference::PAST_END),
        ("BAD_MANIFEST", reference::BAD_MANIFEST),
        ("BAD_RECORD", reference::BAD_RECORD),
        ("NOT_RISING", reference::NOT_RISING),
        ("BAD_BIT_NUMBER", reference::BAD_BIT_NUMBER),
        ("INSIDE_BYTE", reference::INSIDE_BYTE),
        ("NOT_SPONGE", reference::NOT_SPONGE),
    ] {
        constants.push((name.into(), number.into()));
    }
    for (name, value) in [
        ("MAX_DIGEST_BYTES", 32),
        ("MAX_IMAGE_BYTES", 36),
        ("MAX_BLOCK_BYTES", 16),
        ("LESAMNTA_LW_KEY_BYTES", reference::lesamnta::KEY_BYTES),
        ("LESAMNTA_LW_STATE_BYTES", reference::lesamnta::STATE_BYTES),
        ("MAX_MESSAGE_BYTES", reference::MESSAGE_LIMIT),
        ("MAX_MESSAGE_BITS", reference::BIT_LIMIT),
        ("ENTRY_BYTES", 8),
        ("MAX_ENTRIES", 512),
        ("RECORD_BYTES", reference::manifest::RECORD_BYTES),
        ("MAX_RECORDS", reference::manifest::RECORD_LIMIT),
        ("DIGEST", 0),
        ("END_STATE", 1),
        ("OPEN", 0),
        ("CLOSED", 1),
    ] {
        constants.push((name.into(), value));
    }
    constants
}

fn include() -> PathBuf {
    Path::new(env!("CARGO_MANIFEST_DIR")).join("../include")
}

/// A program that asks the compiler to compare every constant.
fn program() -> String {
    let checks: String = constants()
        .iter()
        .map(|(name, value)| {
            format!("#if WICKSLATE_{name} != {value}\n#error \"WICKSLATE_{name}\"\n#endif\n")
        })
        .collect();
    format!("#include \"wickslate.h\"\n#include \"wickslate.h\"\n{checks}{ANSWER}{PROTOTYPES}")
}

/// Compiles the text of a program with every warning on: whether it went
/// through, and what the compiler said.
fn compile(compiler: &str, words: &[&str], file: &str, text: &str) -> (bool, String) {
    let source = Path::new(env!("CARGO_TARGET_TMPDIR")).join(file);
    fs::write(&source, text).expect("a file to write");
    let output = Command::new(compiler)
        .args(["-Wall", "-Wextra", "-Wpedantic", "-c", "-o", "/dev/null"])
        .args(words)
        .arg("-I")
        .args([include(), source])
        .output()
        .expect("a compiler");
    let said = String::from_utf8_lossy(&output.stderr).into_owned();
    (output.status.success(), said)
}

/// Nothing may draw a warning but what the words allow.
fn expect_compiles(compiler: &str, words: &[&str], file: &str, text: &str) {
    let strict = [&["-Werror"], words].concat();
    let (through, said) = compile(compiler, &strict, file, text);
    assert!(through, "{words:?}: {said}");
}

#[test]
fn compiles_as_c99() {
    expect_compiles("gcc", &["-std=c99"], "header99.c", &program());
}

#[test]
fn compiles_as_c11() {
    expect_compiles("gcc", &["-std=c11"], "header11.c", &program());
}

#[test]
fn compiles_as_cpp17() {
    expect_compiles("g++", &["-std=c++17"], "header17.cpp", &program());
}

/// What the examples take for granted.
const CALLER: &str = "
#include <stdio.h>
#include \"wickslate.h\"
extern wickslate_hasher h;
extern const uint8_t *table, *buffer, *list, *manifest, *trace;
extern size_t table_length, buffer_length, list_length, manifest_length, received, switches;
extern uint8_t image[WICKSLATE_MAX_IMAGE_BYTES];
int give_up(void);
void keep(const uint8_t *bytes, size_t length);
void send(const uint8_t *bytes, size_t length);
";

/// Each example of the header, as a function.
fn examples() -> Vec<String> {
    let header = text();
    let indented = |line: &str| line.strip_prefix(" *     ").map(str::to_string);
    // An example follows an empty line; other indented lines do not.
    let paragraphs = header.split("\n *\n").filter_map(|paragraph| {
        let lines = paragraph.lines().take_while(|line| *line != " */");
        lines.map(indented).collect::<Option<Vec<String>>>()
    });
    paragraphs
        .enumerate()
        .map(|(k, lines)| {
            let body = lines.join("\n");
            format!("int example_{k}(void);\nint example_{k}(void) {{\n{body}\nreturn 0;\n}}\n")
        })
        .collect()
}

/// The functions that are declared again.
fn prototypes() -> Vec<&'static str> {
    let name = |line: &'static str| {
        let (_, after) = line.split_once(" wickslate_")?;
        after.split('(').next()
    };
    PROTOTYPES
        .lines()
        .filter(|line| line.starts_with("uint32_t ") || line.starts_with("void "))
        .filter_map(name)
        .collect()
}

#[test]
fn every_function_has_an_example_that_compiles() {
    let examples = examples();
    for name in prototypes() {
        let call = format!("wickslate_{name}(");
        assert!(
            examples.iter().any(|example| example.contains(&call)),
            "{call}"
        );
    }
    let text = format!("{CALLER}{}", examples.concat());
    expect_compiles("gcc", &["-std=c11"], "examples.c", &text);
}

/// The C program of README.md.
#[test]
fn the_readme_compiles() {
    let readme = fs::read_to_string(include().join("../README.md")).expect("README.md");
    let (_, after) = readme.split_once("```c\n").expect("a program");
    let (program, _) = after.split_once("```").expect("its end");
    expect_compiles("gcc", &["-std=c99"], "readme.c", program);
}

/// No constant of the header is left out above.
#[test]
fn every_constant_is_compared() {
    let header = text();
    let defined = header
        .lines()
        .filter_map(|line| line.strip_prefix("#define WICKSLATE_"))
        .filter(|rest| !rest.contains('(') && !rest.starts_with("CALL") && *rest != "H");
    let mut names: Vec<&str> = defined
        .map(|rest| rest.split(' ').next().expect("a name"))
        .collect();
    let constants = constants();
    let mut known: Vec<&str> = constants.iter().map(|(name, _)| name.as_str()).collect();
    names.sort_unstable();
    known.sort_unstable();
    assert_eq!(names, known);
}

/// A sound call of every function that answers, word by word.
const CALLS: [(&str, &str); 17] = [
    ("start", "&h 1"),
    ("update", "&h in 9"),
    ("update_bits", "&h in 9 3"),
    ("finish", "&h"),
    ("digest", "&h out 9"),
    ("end_state", "&h out 9"),
    ("hash", "1 in 9 0 out 9"),
    ("hash_bits", "1 in 9 3 0 out 9"),
    ("permute", "1 out 9"),
    ("unpermute", "1 out 9"),
    ("recover", "1 in 9 0 in 9 out 9"),
    ("recover_bits", "1 in 9 3 0 in 9 out 9"),
    ("entry", "in 8 0 &number &number"),
    ("advance", "&c &number &number"),
    ("check_entry", "in 8 in 9 0"),
    ("hash_list", "1 in 8 in 9 0 out 9"),
    ("check_manifest", "in 9"),
];

/// A sound call of every function that answers nothing.
const SILENT_CALLS: [(&str, &str); 2] = [
    ("lesamnta_encrypt", "key state"),
    ("lesamnta_decrypt", "key state"),
];

/// A line for every sound call, for every one whose answer is thrown away, and
/// for every address that is null; and the warning that each has to draw.
fn careless_lines() -> Vec<(String, Option<&'static str>)> {
    let mut lines = Vec::new();
    for (name, words) in CALLS {
        lines.push((call(name, words), Some("unused-result")));
        lines.extend(sound_and_null_lines("answer = ", name, words));
    }
    for (name, words) in SILENT_CALLS {
        lines.extend(sound_and_null_lines("", name, words));
    }
    lines
}

fn call(name: &str, words: &str) -> String {
    format!("wickslate_{name}({});", words.replace(' ', ", "))
}

/// A line for a sound call, and one for every address that is null.
fn sound_and_null_lines(
    front: &str,
    name: &str,
    words: &str,
) -> Vec<(String, Option<&'static str>)> {
    let mut lines = vec![(format!("{front}{}", call(name, words)), None)];
    let words: Vec<&str> = words.split(' ').collect();
    for k in (0..words.len()).filter(|&k| words[k].parse::<u32>().is_err()) {
        let mut with_null = words.clone();
        with_null[k] = "NULL";
        let line = format!("{front}{}", call(name, &with_null.join(" ")));
        lines.push((line, Some("nonnull")));
    }
    lines
}

/// The compiler warns at exactly the lines at which it should.
fn expect_warnings(compiler: &str, file: &str) {
    const HEAD: &str = "#include \"wickslate.h\"
extern wickslate_hasher h;
extern wickslate_cursor c;
extern const uint8_t in[9];
extern uint8_t out[9];
extern const uint8_t key[WICKSLATE_LESAMNTA_LW_KEY_BYTES];
extern uint8_t state[WICKSLATE_LESAMNTA_LW_STATE_BYTES];
extern uint32_t number, answer;
void careless(void);
void careless(void) {
";
    let lines = careless_lines();
    let calls: String = lines.iter().map(|(line, _)| format!("{line}\n")).collect();
    let (_, said) = compile(compiler, &[], file, &format!("{HEAD}{calls}}}\n"));
    let warned = |line: usize| {
        let here = format!("{file}:{line}:");
        let warning = said.lines().find(|said| said.contains(&here))?;
        warning.rsplit_once("[-W")?.1.strip_suffix(']')
    };
    for ((line, expected), number) in lines.iter().zip(HEAD.lines().count() + 1..) {
        assert_eq!(warned(number), *expected, "{line}\n{said}");
    }
}

#[test]
fn careless_calls_draw_warnings_in_c() {
    expect_warnings("gcc", "careless.c");
}

#[test]
fn careless_calls_draw_warnings_in_cpp() {
    expect_warnings("g++", "careless.cpp");
}

/// No function of the header is left out above.
#[test]
fn every_function_is_tried() {
    let header = text();
    let mut declared: Vec<&str> = header.lines().filter_map(declared).collect();
    let mut typed = prototypes();
    let calls = CALLS.iter().chain(&SILENT_CALLS);
    let mut called: Vec<&str> = calls.map(|&(name, _)| name).collect();
    declared.sort_unstable();
    typed.sort_unstable();
    called.sort_unstable();
    assert_eq!(declared, typed);
    assert_eq!(declared, called);
}
