//! Finds the archive (PONGIWARU_LIB, else crates/exports/out/libexports.a, as `tools/build.sh exports` makes it), and makes
//! the declarations of src/header.rs from the text of crates/exports/pongiwaru.h: its functions and its constants.
use std::{
    env, fs,
    path::{Path, PathBuf},
};

/// the text without comments, preprocessor lines and what follows the prototypes
fn bare(header: &str) -> String {
    let mut out = String::new();
    // a line of the preprocessor may go on behind a backslash
    let header = header.replace("\\\n", " ");
    let mut rest = header.split("static inline").next().unwrap();
    while let Some((text, after)) = rest.split_once("/*") {
        out += text;
        rest = after.split_once("*/").expect("a comment ends").1;
    }
    out += rest;
    out.lines().filter(|l| !l.trim_start().starts_with('#')).collect::<Vec<_>>().join("\n")
}

/// each `PONGIWARU_NAME = NUMBER`, and each `#define PONGIWARU_NAME NUMBER`
fn constants(header: &str) -> Vec<(String, u32)> {
    let mut out = vec![];
    for line in header.lines() {
        let words: Vec<_> = line.split([' ', ',', '=', '\t']).filter(|w| !w.is_empty()).collect();
        let named = match words[..] {
            ["#define", name, number] | [name, number, ..] => Some((name, number)),
            _ => None,
        };
        if let Some((Some(name), Ok(number))) = named.map(|(a, b)| (a.strip_prefix("PONGIWARU_"), b.parse())) {
            out.push((name.to_string(), number))
        }
    }
    out
}

fn scalar(c: &str) -> &'static str {
    match c {
        "uint8_t" => "u8",
        "uint32_t" => "u32",
        "uint64_t" => "u64",
        "size_t" => "usize",
        "bool" => "bool",
        _ => panic!("pongiwaru.h: no Rust type for `{}`", c),
    }
}

/// `const uint8_t *record`, `size_t length`, `uint8_t (*params)[8]`, `uint8_t params[ROWS][BYTES]`: name and Rust type
fn parameter(c: &str) -> (String, String) {
    let pointer = if c.contains("const ") { "*const" } else { "*mut" };
    let c = c.replace("const ", "").replace("PONGIWARU_", "");
    let word = |text: &str| text.chars().take_while(|x| x.is_alphanumeric() || *x == '_').collect::<String>();
    let (of, declared) = c.trim().split_once([' ', '\n']).expect("a type and a name");
    let (of, declared) = (scalar(of), declared.trim());
    let name = word(declared.trim_start_matches(['(', '*']));
    // the last bound is that of a row
    match declared.rsplit_once('[') {
        Some((_, bound)) => {
            let bound = word(bound);
            let bound = if bound.parse::<usize>().is_ok() { bound } else { format!("{} as usize", bound) };
            (name, format!("{} [{}; {}]", pointer, of, bound))
        }
        None if declared.starts_with('*') => (name, format!("{} {}", pointer, of)),
        None => (name, of.into()),
    }
}

/// each prototype as a declaration of Rust's
fn functions(bare: &str) -> Vec<String> {
    let declared = |statement: &str| {
        let (head, parameters) = statement.split_once('(')?;
        let (result, name) = head.trim().rsplit_once([' ', '\n'])?;
        let result = result.rsplit(['\n', '{', '}']).next()?.trim();
        let result = if result == "void" { String::new() } else { format!(" -> {}", scalar(result)) };
        let parameters = parameters.trim().strip_suffix(')')?;
        let parameters = parameters.split(',').filter(|p| p.trim() != "void").map(parameter);
        let parameters: Vec<_> = parameters.map(|(n, t)| format!("{}: {}", n, t)).collect();
        Some(format!("    pub fn {}({}){};\n", name, parameters.join(", "), result))
    };
    bare.split(';').filter_map(declared).collect()
}

fn declarations(header: &str) -> String {
    let constants = constants(header);
    let mut out = String::new();
    for (name, number) in &constants {
        out += &format!("pub const {}: u32 = {};\n", name, number)
    }
    let rows: Vec<_> = constants.iter().map(|(name, number)| format!("(\"{}\", {})", name, number)).collect();
    out += &format!("/// all of them\npub const CONSTANTS: [(&str, u32); {}] = [{}];\n", rows.len(), rows.join(", "));
    out + "extern \"C\" {\n" + &functions(&bare(header)).concat() + "}\n"
}

fn link(archive: &Path) {
    let name = archive.file_name().unwrap().to_str().expect("a name in UTF-8");
    println!("cargo::rustc-cfg=linked");
    println!("cargo::rustc-link-search=native={}", archive.parent().unwrap().display());
    println!("cargo::rustc-link-lib=static:+verbatim={}", name);
}

fn main() {
    let root = PathBuf::from(env::var_os("CARGO_MANIFEST_DIR").unwrap()).join("../..");
    let header = root.join("crates/exports/pongiwaru.h");
    println!("cargo::rerun-if-changed={}", header.display());
    let text = fs::read_to_string(&header).unwrap_or_else(|e| panic!("{}: {}", header.display(), e));
    let out = PathBuf::from(env::var_os("OUT_DIR").unwrap());
    fs::write(out.join("header.rs"), declarations(&text)).unwrap();

    println!("cargo::rustc-check-cfg=cfg(linked)");
    println!("cargo::rerun-if-env-changed=PONGIWARU_LIB");
    let usual = root.join("crates/exports/out/libexports.a");
    let archive = env::var_os("PONGIWARU_LIB").map_or(usual, PathBuf::from);
    println!("cargo::rerun-if-changed={}", archive.display());
    match archive.canonicalize() {
        Ok(archive) => link(&archive),
        Err(_) if env::var_os("CARGO_FEATURE_OPTIONAL_ARCHIVE").is_some() => (),
        Err(_) => panic!(
            "no archive at {}: `tools/build.sh exports` makes it; or name one in PONGIWARU_LIB",
            archive.display()
        ),
    }
}
