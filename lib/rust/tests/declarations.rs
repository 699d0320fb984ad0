//! The declarations in `src/library/sys.rs` are those of `topichub.h`.
use std::collections::BTreeMap;
use std::path::Path;

/// A function's result and parameters, as Rust types.
type Signature = (String, Vec<String>);

fn text_of(file: &str) -> Option<String> {
    std::fs::read_to_string(Path::new(env!("CARGO_MANIFEST_DIR")).join(file)).ok()
}

/// A type of the header, as a Rust type.
fn in_rust(words: &str) -> String {
    let words: Vec<&str> = words.split_whitespace().collect();
    let (kind, is_const) = match words.as_slice() {
        ["const", kind, ..] => (*kind, true),
        [kind, ..] => (*kind, false),
        [] => return String::new(),
    };
    let named = match kind {
        "uint8_t" => "u8",
        "uint32_t" => "u32",
        "uint64_t" => "u64",
        "size_t" => "usize",
        "void" => "",
        "topichub_reply" => "Reply",
        "topichub_broadcast" => "Broadcast",
        "topichub_watch" => "Watch",
        "topichub_trace" => "Trace",
        other => other,
    };
    let is_pointer = words.iter().any(|word| word.contains('*'));
    match (is_pointer, is_const) {
        (true, true) => format!("*const {named}"),
        (true, false) => format!("*mut {named}"),
        (false, _) => named.to_string(),
    }
}

fn without_comments(text: &str) -> String {
    let mut pieces = text.split("/*");
    let first = pieces.next().unwrap_or_default().to_string();
    pieces.fold(first, |kept, piece| {
        kept + piece.split_once("*/").map_or("", |(_, rest)| rest)
    })
}

fn of_the_header(text: &str) -> BTreeMap<String, Signature> {
    let text = without_comments(text);
    let declared = text.split(';').filter_map(|piece| {
        let (head, tail) = piece.trim().rsplit_once('(')?;
        let (result, name) = head.rsplit_once(char::is_whitespace)?;
        let result = result.lines().last()?;
        let parameters = tail
            .trim_end_matches(')')
            .split(',')
            .map(in_rust)
            .filter(|it| !it.is_empty());
        name.starts_with("topichub_")
            .then(|| (name.to_string(), (in_rust(result), parameters.collect())))
    });
    declared.collect()
}

fn of_the_crate(text: &str) -> BTreeMap<String, Signature> {
    let declared = text.split(';').filter_map(|piece| {
        let (_, declaration) = piece.split_once("pub(crate) fn topichub_")?;
        let (name, tail) = declaration.split_once('(')?;
        let (parameters, result) = tail.split_once(')')?;
        let kind = |parameter: &str| Some(parameter.split_once(": ")?.1.trim().to_string());
        let parameters = parameters.split(',').filter_map(kind).collect();
        let result = result.trim().trim_start_matches("-> ").to_string();
        Some((format!("topichub_{name}"), (result, parameters)))
    });
    declared.collect()
}

/// The lines `NAME = NUMBER` or `NAME NUMBER` of a text, without the prefix of the names.
fn numbers<'a>(text: &'a str, before: &str) -> BTreeMap<&'a str, u32> {
    let lines = text.lines().filter_map(|line| {
        let (name, rest) = line.trim().strip_prefix(before)?.split_once(' ')?;
        let value = rest.split_once('=').map_or(rest, |(_, value)| value);
        let digits = value.trim().split(|it: char| !it.is_ascii_digit()).next()?;
        Some((name.trim_end_matches(':'), digits.parse().ok()?))
    });
    lines.collect()
}

#[test]
fn the_declarations_match_the_header() {
    let (header, source) = match (text_of("../c/topichub.h"), text_of("src/library/sys.rs")) {
        (Some(header), Some(source)) => (header, source),
        _ => return eprintln!("skipped: the header is not next to this crate"),
    };
    let (header_has, crate_has) = (of_the_header(&header), of_the_crate(&source));
    assert!(crate_has.len() > 40, "{crate_has:?}");
    for (name, signature) in &crate_has {
        assert_eq!(header_has.get(name), Some(signature), "{name}");
    }
    let mut in_header = numbers(&header, "TOPICHUB_");
    in_header.extend(numbers(&header, "#define TOPICHUB_"));
    let here = numbers(&source, "pub(crate) const ");
    assert!(here.len() > 20, "{here:?}");
    assert!(here.contains_key("BUILD_PROVED"), "{here:?}");
    for (name, value) in &here {
        assert_eq!(in_header.get(name), Some(value), "{name}");
    }
}

#[test]
fn the_crate_and_the_library_have_the_same_version() {
    // Not the part that a pre-release adds to these.
    let parts = [
        env!("CARGO_PKG_VERSION_MAJOR"),
        env!("CARGO_PKG_VERSION_MINOR"),
        env!("CARGO_PKG_VERSION_PATCH"),
    ];
    let version = parts.iter().fold(0, |number, part| {
        1_000 * number + part.parse::<u32>().unwrap()
    });
    assert_eq!(topichub::library_version(), version);
}
