//! Reads the header, the bindings and the definitions of the C functions into one form, and compares them:
//!   signatures HEADER BINDINGS DEFINITIONS STRUCTS..
//! STRUCTS are the files with the structs that the definitions give.

use std::collections::BTreeMap;
use std::process::ExitCode;

const PREFIX: &str = "tegbalowu_";

/// What a function takes and gives, or which fields a struct has: names and types in Rust's words.
#[derive(Clone, Debug, PartialEq)]
struct Signature {
    parameters: Vec<(String, String)>,
    result: String,
}

/// By the name of the function, or `struct` and the name of the struct.
type Signatures = BTreeMap<String, Signature>;

impl Signature {
    fn new(parameters: Vec<(String, String)>, result: &str) -> Signature {
        Signature { parameters, result: result.to_lowercase() }
    }

    /// Without the parameters' names.
    fn types(&self) -> Signature {
        let types = self.parameters.iter().map(|(_, of)| ("_".to_string(), of.clone()));
        Signature { parameters: types.collect(), result: self.result.clone() }
    }

    fn text(&self) -> String {
        let parameter = |(name, of): &(String, String)| format!("{name}: {of}");
        let parameters: Vec<String> = self.parameters.iter().map(parameter).collect();
        format!("({}) -> {}", parameters.join(", "), self.result)
    }
}

/// A file without the lines that are comments or belong to a preprocessor.
fn read(file: &str) -> String {
    let text = std::fs::read_to_string(file).unwrap_or_else(|error| panic!("{file}: {error}"));
    let others = ["//", "/*", "*", "#if", "#endif", "#include", "#define"];
    let is_code = |line: &&str| !others.iter().any(|start| line.trim_start().starts_with(start));
    text.lines().filter(is_code).collect::<Vec<_>>().join(" ")
}

/// What stands before a bracket, between it and the next one that closes, and after that.
fn bracketed(text: &str, open: char, close: char) -> Option<(&str, &str, &str)> {
    let (before, rest) = text.split_once(open)?;
    let (inside, after) = rest.split_once(close)?;
    Some((before.trim(), inside, after.trim()))
}

/// `name: type` with commas between.
fn in_rust(inside: &str) -> Vec<(String, String)> {
    let parts = inside.split(',').map(str::trim).filter(|part| !part.is_empty());
    let named = |part: &str| {
        let (name, of) = part.split_once(':').unwrap_or((part, "no type"));
        (name.trim().trim_start_matches("pub ").to_string(), of.trim().to_string())
    };
    parts.map(named).collect()
}

/// A C declaration as its type and its name; the asterisk of a pointer ends the type.
fn declared(part: &str) -> (String, String) {
    let part = part.trim();
    let place = part.rfind([' ', '*']).map_or(0, |place| place + 1);
    (part[..place].trim().to_string(), part[place..].to_string())
}

/// Rust's word for a C type.
fn number(of: &str) -> String {
    let word = match of.trim() {
        "double" => "f64",
        "size_t" => "usize",
        "uint64_t" => "u64",
        "int64_t" => "i64",
        "int32_t" => "i32",
        "uint8_t" => "u8",
        other => other.trim_start_matches(PREFIX),
    };
    word.to_string()
}

/// C parameters: a pointer and the length after it are a slice.
fn in_c(inside: &str) -> Vec<(String, String)> {
    let mut parts = inside.split(',').map(declared).filter(|(_, name)| name != "void").peekable();
    let mut parameters = Vec::new();
    while let Some((of, name)) = parts.next() {
        let of = match of.strip_suffix('*') {
            None => number(&of),
            Some(cell) => {
                let length = ("size_t".to_string(), format!("{name}_len"));
                let known = if parts.next_if_eq(&length).is_some() { "" } else { " of no length" };
                match cell.trim().strip_prefix("const ") {
                    Some(cell) => format!("&[{}]{known}", number(cell)),
                    None => format!("&mut [{}]{known}", number(cell)),
                }
            }
        };
        parameters.push((name, of));
    }
    parameters
}

/// The header's functions and structs.
fn header(text: &str) -> Signatures {
    let functions = text.split(';').filter_map(|statement| {
        let (head, inside, _) = bracketed(statement, '(', ')')?;
        let (result, name) = declared(head.rsplit(['{', '}']).next()?);
        Some((name.strip_prefix(PREFIX)?.to_string(), Signature::new(in_c(inside), &number(&result))))
    });
    let structs = text.split("typedef struct").skip(1).filter_map(|rest| {
        let (_, inside, after) = bracketed(rest, '{', '}')?;
        let fields = inside.split(';').map(declared).filter(|(_, name)| !name.is_empty());
        let fields = fields.map(|(of, name)| (name, number(&of))).collect();
        let name = after.split_once(';')?.0.trim().trim_start_matches(PREFIX);
        Some((format!("struct {name}"), Signature::new(fields, name)))
    });
    functions.chain(structs).collect()
}

/// The structs of C's layout, of which the name begins with this.
fn structs<'a>(text: &'a str, begin: &'a str) -> impl Iterator<Item = (String, Signature)> + 'a {
    text.split("#[repr(C)]").skip(1).filter_map(move |rest| {
        let (head, inside, _) = bracketed(rest, '{', '}')?;
        let name = head.rsplit(' ').next()?.strip_prefix(begin)?.to_lowercase();
        Some((format!("struct {name}"), Signature::new(in_rust(inside), &name)))
    })
}

/// The entries of the bindings' macro, which gives an answer where an entry does not say what it gives.
fn bindings(text: &str) -> Signatures {
    let functions = text.split(';').filter_map(|entry| {
        let (head, inside, after) = bracketed(&entry[entry.find(PREFIX)?..], '(', ')')?;
        let (symbol, name) = head.split_once(' ')?;
        let result = after.strip_prefix("->").map_or("answer", str::trim);
        (symbol.strip_prefix(PREFIX)? == name).then(|| (name.to_string(), Signature::new(in_rust(inside), result)))
    });
    functions.chain(structs(text, "")).collect()
}

/// The definitions; the structs that they give have names with a C before them.
fn definitions(text: &str, with_structs: &str) -> Signatures {
    let functions = text.split("extern \"C\" fn ").skip(1).filter_map(|rest| {
        let (head, inside, after) = bracketed(rest, '(', ')')?;
        let result = after.strip_prefix("->")?.split_whitespace().next()?;
        let result = result.strip_prefix('C').unwrap_or(result);
        Some((head.strip_prefix(PREFIX)?.to_string(), Signature::new(in_rust(inside), result)))
    });
    functions.chain(structs(with_structs, "C")).collect()
}

/// All functions without the parameters' names; the fields of structs keep theirs.
fn unnamed(all: &Signatures) -> Signatures {
    let one =
        |(name, one): (&String, &Signature)| (name.clone(), if is_struct(name) { one.clone() } else { one.types() });
    all.iter().map(one).collect()
}

fn is_struct(name: &str) -> bool {
    name.starts_with("struct ")
}

/// Prints what one has and the other has not. True where there is nothing.
fn same(first: (&str, &Signatures), second: (&str, &Signatures)) -> bool {
    let mut good = true;
    let names = first.1.keys().chain(second.1.keys().filter(|name| !first.1.contains_key(*name)));
    for name in names {
        let [one, other] = [first.1.get(name), second.1.get(name)];
        if one != other {
            let text = |signature: Option<&Signature>| signature.map_or("nothing".to_string(), Signature::text);
            println!("{name}\n    {}: {}\n    {}: {}", first.0, text(one), second.0, text(other));
            good = false;
        }
    }
    good
}

fn main() -> ExitCode {
    let files: Vec<String> = std::env::args().skip(1).collect();
    let [header_file, bindings_file, defined_file, structs_files @ ..] = &files[..] else {
        eprintln!("usage: signatures HEADER BINDINGS DEFINITIONS STRUCTS..");
        return ExitCode::from(2);
    };
    let declared = header(&read(header_file));
    let bound = bindings(&read(bindings_file));
    let with_structs: String = structs_files.iter().map(|file| read(file)).collect();
    let defined = definitions(&read(defined_file), &with_structs);
    let good = same((header_file, &declared), (bindings_file, &bound))
        & same((header_file, &unnamed(&declared)), (defined_file, &unnamed(&defined)));
    let functions = declared.keys().filter(|name| !is_struct(name)).count();
    println!("signatures: {functions} functions in {header_file}, {bindings_file} and {defined_file}");
    if good && functions > 0 { ExitCode::SUCCESS } else { ExitCode::FAILURE }
}
