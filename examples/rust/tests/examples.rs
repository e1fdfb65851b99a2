//! Tries the wrapper over the examples of the repository.

use shader_check::{
    check, check_json, check_leaves, check_spirv, check_spirv_json, check_spirv_leaves, check_wgsl, check_wgsl_json, check_wgsl_leaves,
    document_of_spirv, document_of_wgsl, version, Verdict,
};
use std::fs;
use std::path::PathBuf;

fn examples() -> PathBuf {
    PathBuf::from(concat!(env!("CARGO_MANIFEST_DIR"), "/.."))
}

// Each file of a folder with this ending, and the file with its answer.
fn cases(folder: PathBuf, ending: &str, answer: &str) -> Vec<(PathBuf, String)> {
    let mut found = Vec::new();
    for entry in fs::read_dir(folder).expect("a folder") {
        let path = entry.expect("a file").path();
        if path.extension().is_some_and(|it| it == ending) {
            let text = fs::read_to_string(path.with_extension(answer)).expect("an answer");
            found.push((path, text));
        }
    }
    assert!(!found.is_empty());
    found
}

// The lines of an answer but those of what lies in its buffers.
fn without_leaves(text: &str) -> Vec<&str> {
    text.lines().filter(|it| !it.starts_with("leaf ")).collect()
}

// The lines of an answer up to those of its first entry point.
fn of_buffers(text: &str) -> Vec<&str> {
    text.lines().take_while(|it| !it.starts_with("entry ")).collect()
}

#[test]
fn each_document_has_its_answer() {
    for (path, answer) in cases(examples(), "json", "txt") {
        let document = fs::read(&path).expect("a document");
        assert_eq!(check(&document).expect("memory").text(), answer, "{}", path.display());
        let leaves = check_leaves(&document).expect("memory");
        assert_eq!(without_leaves(leaves.text()), of_buffers(&answer), "{}", path.display());
    }
}

#[test]
fn each_module_has_its_answer() {
    for (path, answer) in cases(examples().join("spirv"), "spv", "answer") {
        let module = fs::read(&path).expect("a module");
        assert_eq!(check_spirv(&module).expect("memory").text(), answer, "{}", path.display());
        let leaves = check_spirv_leaves(&module).expect("memory");
        assert_eq!(without_leaves(leaves.text()), of_buffers(&answer), "{}", path.display());
    }
}

#[test]
fn the_document_of_a_module_has_the_same_answer() {
    for (path, answer) in cases(examples().join("spirv"), "spv", "answer") {
        let module = fs::read(&path).expect("a module");
        match document_of_spirv(&module).expect("memory") {
            Ok(document) => assert_eq!(check(document.as_bytes()).expect("memory").text(), answer, "{}", path.display()),
            Err(why) => assert_eq!(why, answer, "{}", path.display()),
        }
    }
}

#[test]
fn each_text_has_its_answer() {
    for (path, answer) in cases(examples().join("wgsl"), "wgsl", "answer") {
        let text = fs::read(&path).expect("a text");
        assert_eq!(check_wgsl(&text).expect("memory").text(), answer, "{}", path.display());
        let leaves = check_wgsl_leaves(&text).expect("memory");
        assert_eq!(without_leaves(leaves.text()), of_buffers(&answer), "{}", path.display());
    }
}

#[test]
fn the_document_of_a_text_has_the_same_answer() {
    for (path, answer) in cases(examples().join("wgsl"), "wgsl", "answer") {
        let text = fs::read(&path).expect("a text");
        match document_of_wgsl(&text).expect("memory") {
            Ok(document) => assert_eq!(check(document.as_bytes()).expect("memory").text(), answer, "{}", path.display()),
            Err(why) => assert_eq!(why, answer, "{}", path.display()),
        }
    }
}

#[test]
fn an_object_of_wgsl_has_the_place() {
    let Verdict::Unread(text) = check_wgsl_json(b"fn main() {\n    let x = ;\n}\n").expect("memory") else {
        panic!("a value is missing");
    };
    assert!(text.contains("\"verdict\":\"malformed\""), "{text}");
    assert!(text.contains("\"column\":13") && text.contains("\"line\":2,\"offset\":24"), "{text}");
}

#[test]
fn an_object_has_the_verdict() {
    let Verdict::Refused(text) = check_json(b"junk").expect("memory") else {
        panic!("junk is no document");
    };
    assert!(text.contains("\"verdict\":\"refused\""), "{text}");
    let Verdict::Unread(text) = check_spirv_json(b"junk").expect("memory") else {
        panic!("junk is no module");
    };
    assert!(text.contains("\"verdict\":\"malformed\""), "{text}");
}

#[test]
fn a_text_is_no_module() {
    assert!(matches!(check_spirv(b"junk"), Ok(Verdict::Unread(_))));
    assert!(matches!(document_of_spirv(b"junk"), Ok(Err(_))));
}

#[test]
fn the_version_is_that_of_the_package() {
    let (major, minor, patch) = version();
    assert_eq!(format!("{major}.{minor}.{patch}"), env!("CARGO_PKG_VERSION"));
}
