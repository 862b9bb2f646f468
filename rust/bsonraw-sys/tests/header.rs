//! Each declaration of `sys` is in the header as it is there: numbers, structs with the types and offsets of their fields, and
//! functions. The header may have more.

use std::fs;

use bsonraw_sys as sys;

/// Where the header is, if a library was found.
const HEADER: Option<&str> = option_env!("BSONRAW_HEADER");

/// The header.
fn text() -> String {
    fs::read_to_string(HEADER.expect("a library is found")).expect("the header is beside the library")
}

/// The header without its comments, the lines of the preprocessor, and what is for C++ alone.
fn header() -> String {
    let text = text();
    let mut code = String::new();
    let mut rest = text.as_str();
    while let Some(at) = rest.find("/*") {
        code += &rest[..at];
        rest = rest[at..].split_once("*/").expect("a comment ends").1;
    }
    code += rest;
    let mut lines = Vec::new();
    let mut goes_on = false;
    for line in code.lines() {
        let is_directive = goes_on || line.trim_start().starts_with('#');
        goes_on = is_directive && line.ends_with('\\');
        if !is_directive {
            lines.push(line);
        }
    }
    let mut code = lines.join("\n").replace("extern \"C\" {", "").replace("BSONRAW_RESTRICT ", "");
    while let Some(at) = code.find("extern \"C++\" {") {
        let len = code[at..].find('}').expect("a block ends") + 1;
        code.replace_range(at..at + len, "");
    }
    code
}

/// The parts of the header: what ends with a semicolon or a brace that is in no other brace; a function with a body is one.
fn parts(code: &str) -> Vec<String> {
    let mut parts = vec![String::new()];
    let mut depth = 0;
    for c in code.chars() {
        parts.last_mut().unwrap().push(c);
        depth += i32::from(c == '{') - i32::from(c == '}');
        let has_body = ["BSONRAW_INLINE", "BSONRAW_LOCAL"].iter().any(|word| parts.last().unwrap().contains(word));
        let ends = has_body && c == '}' || c == ';';
        if depth == 0 && ends {
            parts.push(String::new());
        }
    }
    parts.iter().map(|part| part.split_whitespace().collect::<Vec<_>>().join(" ")).collect()
}

/// The parts that begin with these words and a name, each as the name and what is between its braces.
fn braced(words: &str) -> Vec<(String, String)> {
    let found = parts(&header()).into_iter().filter_map(|part| {
        let (head, inside) = part.strip_prefix(words)?.split_once('{')?;
        Some((head.trim().to_string(), inside.trim_end_matches([';', '}', ' ']).trim().to_string()))
    });
    found.collect()
}

#[test]
fn numbers_are_those_of_the_header() {
    let whole = |all: &[(&str, u32)]| all.iter().map(|(name, number)| (name.to_string(), i64::from(*number))).collect();
    let statuses = sys::STATUSES.iter().map(|(name, number)| (name.to_string(), i64::from(*number))).collect();
    let declared: Vec<(&str, Vec<(String, i64)>)> = vec![
        ("bsonraw_status", statuses),
        ("bsonraw_tag", whole(sys::TAGS)),
        ("bsonraw_kind", whole(sys::KINDS)),
        ("bsonraw_reason", whole(sys::REASONS)),
        ("bsonraw_cause", whole(sys::CAUSES)),
        ("bsonraw_json_reason", whole(sys::JSON_REASONS)),
        ("bsonraw_json_wrapper", whole(sys::JSON_WRAPPERS)),
    ];
    let said: Vec<(String, Vec<(String, i64)>)> = braced("enum ")
        .into_iter()
        .map(|(name, inside)| {
            let numbers = inside.split(',').map(|line| line.split_once('=').expect("each has a number"));
            (name, numbers.map(|(name, number)| (name.trim().into(), number.trim().parse().unwrap())).collect())
        })
        .collect();
    for (name, declared) in declared {
        let (_, numbers) = said.iter().find(|(it, _)| it == name).expect("the enum is in the header");
        assert!(!declared.is_empty());
        for one in declared {
            assert!(numbers.contains(&one), "{name} has no {one:?}");
        }
    }
}

/// The size of a type of the header, which is its alignment too except for the struct in others.
fn c_size(of: &str) -> usize {
    match of {
        "u8" => 1,
        "u32" | "i32" => 4,
        "u64" | "i64" => 8,
        "bsonraw_error" => size_of::<sys::bsonraw_error>(),
        _ => panic!("{of} has no size here"),
    }
}

/// A type of C as one of Rust.
fn translated(of: &str) -> String {
    let of = of.trim();
    if let Some(to) = of.strip_suffix('*') {
        let (is_const, to) = to.trim().strip_prefix("const ").map_or((false, to.trim()), |to| (true, to));
        return format!("*{} {}", if is_const { "const" } else { "mut" }, translated(to));
    }
    match of.strip_prefix("struct ").unwrap_or(of) {
        "uint8_t" => "u8".into(),
        "int32_t" => "i32".into(),
        "uint32_t" => "u32".into(),
        "char" => "c_char".into(),
        "int64_t" => "i64".into(),
        "uint64_t" => "u64".into(),
        "size_t" => "usize".into(),
        name => name.into(),
    }
}

/// A declaration, such as `const uint8_t *bytes`, as name and type. As an argument an array is a pointer.
fn declaration(text: &str) -> (String, String) {
    let at = text.rfind([' ', '*']).expect("a type is before a name") + 1;
    match text[at..].split_once('[') {
        Some((name, _)) => (name.to_string(), translated(&format!("{}*", &text[..at]))),
        None => (text[at..].to_string(), translated(&text[..at])),
    }
}

#[test]
fn structs_are_those_of_the_header() {
    type Fields = &'static [(&'static str, &'static str, usize)];
    let declared: [(&str, usize, Fields); 10] = [
        ("bsonraw_error", size_of::<sys::bsonraw_error>(), sys::bsonraw_error::FIELDS),
        ("bsonraw_iter", size_of::<sys::bsonraw_iter>(), sys::bsonraw_iter::FIELDS),
        ("bsonraw_entry", size_of::<sys::bsonraw_entry>(), sys::bsonraw_entry::FIELDS),
        ("bsonraw_value", size_of::<sys::bsonraw_value>(), sys::bsonraw_value::FIELDS),
        ("bsonraw_builder", size_of::<sys::bsonraw_builder>(), sys::bsonraw_builder::FIELDS),
        ("bsonraw_reader", size_of::<sys::bsonraw_reader>(), sys::bsonraw_reader::FIELDS),
        ("bsonraw_resync", size_of::<sys::bsonraw_resync>(), sys::bsonraw_resync::FIELDS),
        ("bsonraw_json_report", size_of::<sys::bsonraw_json_report>(), sys::bsonraw_json_report::FIELDS),
        ("bsonraw_report", size_of::<sys::bsonraw_report>(), sys::bsonraw_report::FIELDS),
        ("bsonraw_token", size_of::<sys::bsonraw_token>(), sys::bsonraw_token::FIELDS),
    ];
    let said = braced("struct ");
    for (name, size, fields) in declared {
        let (_, inside) = said.iter().find(|(it, _)| it == name).expect("the struct is in the header");
        let mut at = 0_usize;
        let mut most = 0_usize;
        let mut wanted = Vec::new();
        for field in inside.split(';').filter(|field| !field.trim().is_empty()) {
            let (field, of) = declaration(field.trim());
            let aligned = c_size(&of).min(8);
            at = at.next_multiple_of(aligned);
            wanted.push((field, of.clone(), at));
            at += c_size(&of);
            most = aligned.max(most);
        }
        let found: Vec<_> = fields.iter().map(|(field, of, at)| (field.to_string(), of.to_string(), *at)).collect();
        assert_eq!(found, wanted, "{name}");
        assert_eq!(size, at.next_multiple_of(most), "{name}");
    }
}

#[test]
fn functions_are_those_of_the_header() {
    let mut said = Vec::new();
    for part in parts(&header()) {
        // after the arguments may be which of them are memory with a length
        let whole = part.strip_suffix(");").and_then(|part| part.split(") BSONRAW_").next());
        let Some((head, arguments)) = whole.and_then(|whole| whole.split_once('(')) else {
            continue;
        };
        if part.contains("BSONRAW_INLINE") || part.contains("BSONRAW_LOCAL") {
            continue;
        }
        let (name, result) = declaration(head.trim_start_matches("BSONRAW_USE "));
        let arguments: Vec<_> = match arguments {
            "void" => Vec::new(),
            arguments => arguments.split(", ").map(declaration).collect(),
        };
        said.push((name, result, arguments));
    }
    let text = |of: &str| of.split_whitespace().collect::<Vec<_>>().join(" ");
    let declared: Vec<_> = sys::FUNCTIONS
        .iter()
        .map(|(name, result, arguments)| {
            let arguments = arguments.iter().map(|(name, of)| (name.to_string(), text(of))).collect::<Vec<_>>();
            (name.to_string(), text(result), arguments)
        })
        .collect();
    assert_eq!(declared.len(), 40);
    for one in declared {
        assert!(said.contains(&one), "the header has no {one:?}");
    }
}

#[test]
fn the_version_is_that_of_the_header_and_the_library() {
    let text = text();
    let line = text.lines().find_map(|line| line.strip_prefix("#define BSONRAW_VERSION "));
    let number: u32 = line.expect("it has a version").split(' ').next().unwrap().parse().unwrap();
    // SAFETY: these take nothing.
    assert_eq!(unsafe { (sys::bsonraw_version(), sys::bsonraw_layout_2()) }, (number, 2));
    // The last four digits are raised by what is added.
    assert_eq!(sys::BSONRAW_VERSION / 10000, number / 10000);
    assert!(sys::BSONRAW_VERSION <= number);
}
