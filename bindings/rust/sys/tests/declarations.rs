//! At each width, the declarations of this crate, those of the header for C and the source of the functions say the same.
use eddybridge_sys as sys;
use std::collections::BTreeMap;
use std::fs;

/// The forms of answers.
const ANSWERS: &str = include_str!("../src/lib.rs");
/// The declarations that both widths have, and those of the 16-bit one alone.
const SHARED: &str = include_str!("../src/calls.rs");
const ONLY_16: &str = include_str!("../src/width16.rs");

/// A width, and what this crate says of it.
struct Width {
    bits: u32,
    /// How many functions it has.
    functions: usize,
    modulus: u32,
    /// The words and the packet's bytes of a sketch of threshold T, as the header writes them.
    formulas: [&'static str; 2],
    /// Both for threshold 5.
    lengths: [usize; 2],
}

const WIDTHS: [Width; 2] = [
    Width {
        bits: 32,
        functions: 23,
        modulus: sys::width32::MODULUS,
        formulas: ["(4 + (t))", "(8 + 4 * (t))"],
        lengths: [sys::width32::words(5), sys::width32::packet_bytes(5)],
    },
    Width {
        bits: 16,
        functions: 24,
        modulus: sys::width16::MODULUS as u32,
        formulas: ["(5 + (t))", "(6 + 2 * (t))"],
        lengths: [sys::width16::words(5), sys::width16::packet_bytes(5)],
    },
];

/// The types of each function's arguments and of its answer, in Rust's words.
type Functions = BTreeMap<String, (Vec<String>, String)>;

/// The text of a file of the repository.
fn text(path: &str) -> String {
    let path = format!("{}/../../../{path}", env!("CARGO_MANIFEST_DIR"));
    fs::read_to_string(&path).unwrap_or_else(|error| panic!("{path}: {error}"))
}

/// The name, the arguments and the answer of `NAME(ARGUMENT, ..) -> ANSWER`.
fn parts(signature: &str) -> (String, Vec<String>, String) {
    let (name, rest) = signature.split_once('(').expect("arguments");
    let (arguments, answer) = rest.split_once(')').expect("an end of the arguments");
    let arguments = arguments.split(',').map(|argument| argument.trim().to_string());
    let answer = answer.trim().trim_start_matches("->").trim();
    (name.trim().to_string(), arguments.filter(|argument| !argument.is_empty()).collect(), answer.to_string())
}

/// The type of an argument `NAME: TYPE`.
fn type_of(argument: &str) -> &str {
    argument.split_once(": ").expect("a type").1
}

impl Width {
    /// The text of the width's header.
    fn header(&self) -> String {
        text(&format!("include/eddybridge{}.h", self.bits))
    }

    /// What the header defines a name as.
    fn defined(&self, name: &str) -> String {
        let start = format!("#define EDDY{}_{name} ", self.bits);
        let line = self.header().lines().find_map(|line| line.strip_prefix(&start).map(str::to_string));
        line.unwrap_or_else(|| panic!("the header has no {name}"))
    }

    /// A type with `Word` made the number that it stands for.
    fn resolved(&self, name: &str) -> String {
        name.replace("Word", &format!("u{}", self.bits))
    }

    /// The functions that this crate declares, by their names in the archive.
    fn declared_here(&self) -> Functions {
        let (_, shared) = SHARED.split_once("declarations! {").expect("declarations");
        let (shared, _) = shared.split_once("$($more)*").expect("their end");
        let (_, more) = ONLY_16.split_once("calls! {").expect("declarations");
        let (more, _) = more.split_once('}').expect("their end");
        let signatures = shared.split(';').chain(more.split(';').filter(|_| self.bits == 16));
        signatures
            .filter_map(|text| text.trim().strip_prefix("pub fn "))
            .map(parts)
            .map(|(name, arguments, answer)| {
                let types = arguments.iter().map(|argument| self.resolved(type_of(argument))).collect();
                (format!("eddy{}_{name}", self.bits), (types, answer))
            })
            .collect()
    }

    /// A type of the header in Rust's words.
    fn of_c(&self, name: &str) -> String {
        let own = name.trim().replace(&format!("eddy{}_", self.bits), "");
        let same = match own.as_str() {
            "size_t" => "usize",
            "int32_t" => "i32",
            "uint16_t" => "u16",
            "uint32_t" => "u32",
            "uint8_t *" => "*mut u8",
            "const uint8_t *" => "*const u8",
            "uint16_t *" => "*mut u16",
            "const uint16_t *" => "*const u16",
            "uint32_t *" => "*mut u32",
            "const uint32_t *" => "*const u32",
            "number" => "Number",
            "value" => "Value",
            "power" => "Power",
            other => panic!("the header has a type {other}"),
        };
        same.to_string()
    }

    /// The fields of an answer of the header, each with its type.
    fn fields_in_header(&self, name: &str) -> Vec<(String, String)> {
        let header = self.header();
        let (before, _) = header.split_once(&format!("}} eddy{}_{name};", self.bits)).expect("an answer");
        let (_, fields) = before.rsplit_once('{').expect("its fields");
        let lines = fields.lines().filter_map(|line| line.trim().strip_suffix(';'));
        lines
            .map(|line| line.split_once(' ').expect("a field"))
            .map(|(of, field)| (field.into(), self.of_c(of)))
            .collect()
    }

    /// The fields of an answer of this crate, each with its type.
    fn fields_here(&self, name: &str) -> Vec<(String, String)> {
        let (_, after) = ANSWERS.split_once(&format!("pub struct {name}")).expect("an answer");
        let (fields, _) = after.split_once("\n}").expect("its end");
        let lines = fields.lines().filter_map(|line| line.trim().strip_prefix("pub ")?.strip_suffix(','));
        lines
            .map(|line| line.split_once(": ").expect("a field"))
            .map(|(field, of)| (field.into(), self.resolved(of)))
            .collect()
    }

    /// The functions that the header declares, each on one line that begins at its start.
    fn declared_in_header(&self) -> Functions {
        let header = self.header();
        let lines = header.lines().filter(|line| line.ends_with(");") && !line.starts_with([' ', '#', '/']));
        lines
            .map(|line| {
                let (before, arguments, _) = parts(line);
                let (answer, name) = before.split_once(' ').expect("a type and a name");
                let types = arguments.iter().map(|argument| {
                    let end = argument.rfind([' ', '*']).expect("a type and a name") + 1;
                    self.of_c(&argument[..end])
                });
                (name.to_string(), (types.collect(), self.of_c(answer)))
            })
            .collect()
    }

    /// The types as which a type of the source crosses: a lent slice as a pointer and a length.
    fn of_rattle(&self, name: &str) -> Vec<String> {
        let own = self.resolved(name);
        let slice = |start: &str| own.strip_prefix(start).and_then(|rest| rest.strip_suffix(']'));
        if let Some(element) = slice("&[") {
            return vec![format!("*const {element}"), "usize".to_string()];
        }
        if let Some(element) = slice("&mut [") {
            return vec![format!("*mut {element}"), "usize".to_string()];
        }
        match own.as_str() {
            "Evaluated" => vec!["Value".to_string()],
            "Powered" => vec!["Power".to_string()],
            _ => vec![own],
        }
    }

    /// The functions of every source file of the crate that the archive is made of.
    fn written_in_source(&self) -> Functions {
        let folder = format!("{}/../../../crates/exports{}_c/src", env!("CARGO_MANIFEST_DIR"), self.bits);
        let files = fs::read_dir(&folder).unwrap_or_else(|error| panic!("{folder}: {error}"));
        let texts = files.map(|file| fs::read_to_string(file.expect("a file").path()).expect("its text"));
        let text: String = texts.collect();
        let signatures = text.split("pub extern \"C\" fn ").skip(1);
        signatures
            .map(|text| parts(text.split("ensures").next().unwrap_or("")))
            .map(|(name, arguments, answer)| {
                let types = arguments.iter().flat_map(|argument| self.of_rattle(type_of(argument))).collect();
                (name, (types, self.of_rattle(&answer).concat()))
            })
            .collect()
    }
}

#[test]
fn functions_are_those_of_the_headers() {
    for width in WIDTHS {
        assert_eq!(width.declared_here().len(), width.functions);
        assert_eq!(width.declared_here(), width.declared_in_header());
    }
}

#[test]
fn functions_are_those_of_the_source() {
    for width in WIDTHS {
        assert_eq!(width.declared_here(), width.written_in_source());
    }
}

#[test]
fn answers_are_those_of_the_headers() {
    for width in WIDTHS {
        for (here, in_c) in [("Number", "number"), ("Value", "value"), ("Power", "power")] {
            assert_eq!(width.fields_here(here).len(), 2);
            assert_eq!(width.fields_here(here), width.fields_in_header(in_c));
        }
    }
}

#[test]
fn constants_are_those_of_the_headers() {
    let shared = [
        ("MAX_THRESHOLD", sys::MAX_THRESHOLD as u32),
        ("OK", sys::OK),
        ("THRESHOLD_OUT_OF_RANGE", sys::THRESHOLD_OUT_OF_RANGE),
        ("THRESHOLDS_DIFFER", sys::THRESHOLDS_DIFFER),
        ("NO_LAST_CODE", sys::NO_LAST_CODE),
        ("COUNT_ABOVE_THRESHOLD", sys::COUNT_ABOVE_THRESHOLD),
        ("BUFFER_TOO_SHORT", sys::BUFFER_TOO_SHORT),
        ("PACKET_TOO_SHORT", sys::PACKET_TOO_SHORT),
        ("SUMS_OUT_OF_RANGE", sys::SUMS_OUT_OF_RANGE),
        ("NOT_REDUCED", sys::NOT_REDUCED),
        ("NO_COEFFICIENT", sys::NO_COEFFICIENT),
        ("NOT_WELL_FORMED", sys::NOT_WELL_FORMED),
    ];
    for width in WIDTHS {
        for (name, number) in shared.into_iter().chain([("MODULUS", width.modulus)]) {
            assert_eq!(width.defined(name).trim_end_matches('u'), number.to_string(), "{name}");
        }
    }
}

#[test]
fn lengths_are_those_of_the_headers() {
    for width in WIDTHS {
        assert_eq!(["WORDS(t)", "PACKET_BYTES(t)"].map(|name| width.defined(name)), width.formulas);
    }
    assert_eq!(WIDTHS.map(|width| width.lengths), [[9, 28], [10, 16]]);
}

#[test]
fn versions_are_those_of_the_headers() {
    for width in WIDTHS {
        let parts = ["VERSION_MAJOR", "VERSION_MINOR", "VERSION_PATCH"].map(|part| width.defined(part)).join(".");
        assert_eq!(parts, env!("CARGO_PKG_VERSION"));
        assert_eq!(width.defined("VERSION"), format!("\"{parts}\""));
    }
}
