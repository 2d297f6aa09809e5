//! The header says what the Rust declarations say, and both what the archive exports and what the
//! source of the exported functions says.

use jelvaksna::{
    refusal, DESK_WORDS, MAX_CLOSING, MAX_DESKS, MAX_FREE, MAX_LIMIT, MAX_OPENING, MAX_PACE,
    MIN_PACE, VERSION,
};
use std::collections::BTreeSet;
use std::fs::read_to_string;
use std::process::Command;

fn file(path: &str) -> String {
    let path = format!("{}/../{path}", env!("CARGO_MANIFEST_DIR"));
    read_to_string(&path).unwrap_or_else(|e| panic!("{path}: {e}"))
}

/// One line with single spaces, without comments, and with nothing that a layout adds.
fn flat(text: &str) -> String {
    let mut rest = text;
    let mut bare = String::new();
    while let Some(start) = rest.find("/*") {
        bare += &rest[..start];
        let length = rest[start..].find("*/").expect("a comment that ends") + 2;
        rest = &rest[start + length..];
    }
    bare += rest;
    let lines = bare.lines().map(|line| line.split("//").next().unwrap());
    let bare = lines.collect::<Vec<_>>().join(" ");
    let bare = bare.split_whitespace().collect::<Vec<_>>().join(" ");
    bare.replace("( ", "(")
        .replace(", )", ")")
        .replace(",)", ")")
}

/// A function: its name, its parameters as name and Rust type, and its result.
type Function = (String, Vec<(String, String)>, String);

fn rust_type(c: &str) -> &str {
    match c {
        "const uint32_t *" => "*const u32",
        "uint32_t *" => "*mut u32",
        "size_t" => "usize",
        "uint32_t" => "u32",
        "int32_t" => "i32",
        "jelvaksna_answer" => "Answer",
        other => panic!("the header has a type that no call takes: {other}"),
    }
}

/// A C declaration's type and name.
fn c_declared(text: &str) -> (String, String) {
    let at = text.rfind([' ', '*']).expect("a type and a name") + 1;
    let c = text[..at].trim_end();
    (text[at..].to_string(), rust_type(c).to_string())
}

fn of_header(header: &str) -> Vec<Function> {
    let prototypes = header
        .split(';')
        .filter(|part| part.contains("jelvaksna_answer jelvaksna_"));
    prototypes
        .map(|part| {
            let part = &part[part.find("jelvaksna_answer jelvaksna_").unwrap()..];
            let (head, params) = part.split_once('(').expect("parameters");
            let params = params.trim().strip_suffix(')').expect("a closed prototype");
            let (name, result) = c_declared(head);
            (name, params.split(", ").map(c_declared).collect(), result)
        })
        .collect()
}

/// The functions of a Rust or Rattle source after each of these words.
fn of_source(source: &str, before: &str) -> Vec<Function> {
    let functions = source.split(before).skip(1);
    functions
        .map(|part| {
            let (name, rest) = part.split_once('(').expect("parameters");
            let (params, rest) = rest.split_once(") -> ").expect("a result");
            let result = rest.split([' ', ';', '{']).next().unwrap();
            let params = params.trim_end_matches(',').split(", ").map(|param| {
                let (name, of) = param.split_once(": ").expect("a type");
                (name.to_string(), of.to_string())
            });
            (name.to_string(), params.collect(), result.to_string())
        })
        .collect()
}

fn header_functions() -> Vec<Function> {
    of_header(&flat(&file("include/jelvaksna.h")))
}

#[test]
fn prototypes() {
    let declared = flat(&file("host/src/linked.rs"));
    let declared = declared.split_once("extern \"C\" {").unwrap().1;
    let declared = declared.split_once('}').unwrap().0;
    let header = header_functions();
    assert_eq!(header.len(), 17);
    assert_eq!(header, of_source(declared, "pub fn "));
}

/// For every call but those of the open desk, of several desks and of the latest free minute there is one of
/// the profile, with the same parameters.
#[test]
fn profile() {
    let without = ["jelvaksna_several", "jelvaksna_latest_free"];
    let (of_profile, calls): (Vec<_>, Vec<_>) = header_functions()
        .into_iter()
        .filter(|f| !f.0.starts_with("jelvaksna_desk_") && !without.contains(&f.0.as_str()))
        .partition(|f| f.0.starts_with("jelvaksna_first_come_"));
    let renamed = of_profile
        .into_iter()
        .map(|f| (f.0.replace("_first_come_", "_"), f.1, f.2));
    assert_eq!(renamed.collect::<Vec<_>>(), calls);
}

#[test]
fn answer() {
    let header = flat(&file("include/jelvaksna.h"));
    let fields = header
        .split_once("typedef struct jelvaksna_answer {")
        .unwrap()
        .1;
    let (fields, rest) = fields.split_once('}').unwrap();
    assert!(rest.starts_with(" jelvaksna_answer;"));
    let fields: Vec<_> = fields
        .trim()
        .trim_end_matches(';')
        .split("; ")
        .map(c_declared)
        .collect();
    let declared = flat(&file("host/src/linked.rs"));
    assert_eq!(fields, struct_fields(&declared, "pub struct Answer {"));
}

fn struct_fields(source: &str, head: &str) -> Vec<(String, String)> {
    let fields = source.split_once(head).expect("the struct").1;
    let fields = fields
        .split_once('}')
        .unwrap()
        .0
        .trim()
        .trim_end_matches(',');
    let field = |field: &str| {
        let (name, of) = field.trim().split_once(": ").expect("a type");
        (name.trim_start_matches("pub ").to_string(), of.to_string())
    };
    fields.split(", ").map(field).collect()
}

#[test]
fn constants() {
    let header = file("include/jelvaksna.h");
    let value = |name: &str| {
        let line = header.lines().find_map(|line| {
            let rest = line
                .strip_prefix("#define JELVAKSNA_")?
                .strip_prefix(name)?;
            rest.strip_prefix(' ')
        });
        let line = line.unwrap_or_else(|| panic!("the header lacks JELVAKSNA_{name}"));
        line.split("/*").next().unwrap().trim().to_string()
    };
    let numbers = [
        ("CUT", refusal::CUT),
        ("KIND", refusal::KIND),
        ("RANGE", refusal::RANGE),
        ("TWICE", refusal::TWICE),
        ("FULL", refusal::FULL),
        ("COUNT", refusal::COUNT),
        ("TAIL", refusal::TAIL),
        ("DISORDER", refusal::DISORDER),
        ("NARROW", refusal::NARROW),
        ("NOT_POSTING", refusal::NOT_POSTING),
        ("UNLISTED", refusal::UNLISTED),
        ("UNKEPT", refusal::UNKEPT),
        ("CROSSED", refusal::CROSSED),
        ("DONE", refusal::DONE),
        ("EARLY", refusal::EARLY),
        ("OVERTIME", refusal::OVERTIME),
        ("UNREACHABLE", refusal::UNREACHABLE),
    ];
    for (i, (name, number)) in numbers.into_iter().enumerate() {
        assert_eq!(number, i as u32 + 1);
        assert_eq!(value(name), number.to_string(), "{name}");
    }
    assert!(header.contains(&format!("number, 1 to {};", numbers.len())));
    assert_eq!(value("MAX_OPENING"), MAX_OPENING.to_string());
    assert_eq!(value("MAX_FREE"), MAX_FREE.to_string());
    assert_eq!(value("MIN_PACE"), MIN_PACE.to_string());
    assert_eq!(value("MAX_PACE"), MAX_PACE.to_string());
    let rows = jelvaksna::model::MAX_ROWS;
    assert_eq!(value("MAX_ROWS"), rows.to_string());
    assert_eq!(value("MAX_LIST_WORDS"), (2 * rows).to_string());
    assert_eq!(value("MAX_BOOK_WORDS"), (4 * rows + 3).to_string());
    assert_eq!(value("DESK_WORDS"), DESK_WORDS.to_string());
    assert_eq!(value("MAX_DESKS"), MAX_DESKS.to_string());
    assert_eq!(value("MAX_CLOSING"), MAX_CLOSING.to_string());
    assert_eq!(value("MAX_LIMIT"), MAX_LIMIT.to_string());
    assert_eq!(value("VERSION"), format!("\"{VERSION}\""));
    assert!(env!("CARGO_PKG_VERSION").starts_with(&format!("{VERSION}.")));
}

/// The first parameter of each call that works out ends or opens a desk is the opening, and no other
/// call has one.
#[test]
fn opening() {
    let header = header_functions();
    let opening = ("opening".to_string(), "u32".to_string());
    let told: Vec<_> = header.iter().filter(|f| f.1[0] == opening).collect();
    assert_eq!(told.len(), 11);
    let on_a_desk = |name: &str| name.starts_with("jelvaksna_desk_") && !name.ends_with("_open");
    for (name, params, _) in &header {
        let none = name.ends_with("_row_place") || on_a_desk(name);
        assert_eq!(params.contains(&opening), !none, "{name}");
    }
}

/// The table of classes in the header's text has the margins that the model has.
#[test]
fn margins() {
    let header = file("include/jelvaksna.h");
    let entries = |name: &str| -> Vec<i64> {
        let line = header.lines().find_map(|line| {
            let rest = line.strip_prefix(" *     ")?;
            rest.strip_prefix(name)?.strip_prefix(' ')
        });
        let line = line.unwrap_or_else(|| panic!("the header lacks the line {name}"));
        let numbers = line.split_whitespace().map(|n| n.replace(',', ""));
        numbers.map(|n| n.parse().expect("a number")).collect()
    };
    assert_eq!(entries("class"), [0, 1, 2, 3, 4, 5, 6, 7]);
    assert_eq!(entries("margin"), jelvaksna::model::MARGINS);
}

/// What a tool of the binutils prints about the archive.
fn told_by(tool: &str, arguments: &[&str]) -> String {
    let archive = concat!(
        env!("CARGO_MANIFEST_DIR"),
        "/../target/staticlib/libjelvaksna.a"
    );
    let output = Command::new(tool).args(arguments).arg(archive).output();
    let output = output.unwrap_or_else(|e| panic!("{tool} of the binutils: {e}"));
    assert!(output.status.success(), "{tool} fails");
    String::from_utf8_lossy(&output.stdout).into_owned()
}

/// The archive exports the functions of the header and nothing else.
#[test]
fn symbols() {
    let text = told_by("nm", &["-g", "--defined-only"]);
    let exported: BTreeSet<&str> = text
        .lines()
        .filter_map(|line| line.rsplit_once(' ').map(|(_, name)| name))
        .collect();
    let header = header_functions();
    let declared: BTreeSet<&str> = header.iter().map(|f| f.0.as_str()).collect();
    assert_eq!(exported, declared);
}

/// As the header says: the archive has no data that is written, and asks the C library for nothing
/// but the moving and filling of memory.
#[test]
fn keeps_nothing() {
    for line in told_by("size", &["-A"]).lines() {
        let mut fields = line.split_whitespace();
        let section = fields.next().unwrap_or_default();
        let written = [".data", ".bss", ".tdata", ".tbss"]
            .iter()
            .any(|name| section.starts_with(name));
        if written && !section.starts_with(".data.rel.ro") {
            assert_eq!(fields.next(), Some("0"), "{line}");
        }
    }
    for line in told_by("nm", &["-u"]).lines() {
        if let Some((_, name)) = line.split_once(" U ") {
            let memory = ["memcpy", "memmove", "memset", "memcmp", "bcmp"];
            assert!(memory.contains(&name), "the archive asks for {name}");
        }
    }
}

/// The source of the boundary has these functions with these types, and its answer these fields.
#[test]
fn source() {
    let source = flat(&file("crates/jelvaksna/src/lib.rt"));
    let exported = of_source(&source, "#[unsafe(no_mangle)] pub extern \"C\" fn ");
    // A slice of the source is a pointer and a length to C.
    let spread = |params: &[(String, String)]| -> Vec<String> {
        let each = params.iter().flat_map(|(_, of)| match of.as_str() {
            "&[u32]" => vec!["*const u32", "usize"],
            "&mut [u32]" => vec!["*mut u32", "usize"],
            other => vec![other],
        });
        each.map(String::from).collect()
    };
    let mut have: Vec<_> = exported
        .iter()
        .map(|f| (f.0.clone(), spread(&f.1)))
        .collect();
    let header = header_functions();
    let mut want: Vec<_> = header.iter().map(|f| (f.0.clone(), spread(&f.1))).collect();
    have.sort();
    want.sort();
    assert_eq!(have, want);
    let results: BTreeSet<&str> = exported.iter().map(|f| f.2.as_str()).collect();
    assert_eq!(results.len(), 1, "one answer serves all calls");
    let answer = results.first().unwrap();
    let head = format!("#[repr(C)] #[derive(Clone, Copy, Default)] pub struct {answer} {{");
    let answers = flat(&file("crates/answers/src/lib.rt"));
    let declared = flat(&file("host/src/linked.rs"));
    assert_eq!(
        struct_fields(&answers, &head),
        struct_fields(&declared, "pub struct Answer {")
    );
}
