//! Judges the document in each file that is named, as ./shader-check does; with --json, --leaves, --spirv, --wgsl or --document in front as
//! that does with them. --version prints the library's version.

use shader_check::{
    check, check_json, check_leaves, check_spirv, check_spirv_json, check_spirv_leaves, check_wgsl, check_wgsl_json, check_wgsl_leaves,
    document_of_spirv, document_of_wgsl, version, NoMemory, Verdict,
};
use std::process::ExitCode;

type Judge = fn(&[u8]) -> Result<Verdict, NoMemory>;

fn written(document: Result<String, String>) -> Verdict {
    match document {
        Ok(document) => Verdict::Accepted(document),
        Err(why) => Verdict::Unread(why),
    }
}

// The call for the words in front. --document says that SPIR-V is judged, where it has no --wgsl beside it.
fn judge_for(words: &[String]) -> Judge {
    let has = |word: &str| words.iter().any(|it| it == word);
    match (has("--wgsl"), has("--spirv"), has("--document"), has("--json"), has("--leaves")) {
        (true, _, true, ..) => |wgsl| document_of_wgsl(wgsl).map(written),
        (true, _, _, true, _) => check_wgsl_json,
        (true, _, _, _, true) => check_wgsl_leaves,
        (true, ..) => check_wgsl,
        (_, _, true, ..) => |spirv| document_of_spirv(spirv).map(written),
        (_, true, _, true, _) => check_spirv_json,
        (_, true, _, _, true) => check_spirv_leaves,
        (_, true, ..) => check_spirv,
        (_, _, _, true, _) => check_json,
        (.., true) => check_leaves,
        _ => check,
    }
}

fn main() -> ExitCode {
    let mut names: Vec<String> = std::env::args().skip(1).collect();
    if names.first().is_some_and(|it| it == "--version") {
        let (major, minor, patch) = version();
        println!("{major}.{minor}.{patch}");
        return ExitCode::SUCCESS;
    }
    let first = names.iter().position(|it| !it.starts_with("--")).unwrap_or(names.len());
    let files = names.split_off(first);
    let judge = judge_for(&names);
    let mut worst = 0;
    for name in files {
        let Ok(module) = std::fs::read(&name) else {
            eprintln!("{name} cannot be read");
            return ExitCode::from(125);
        };
        let status = match judge(&module) {
            Ok(verdict) => {
                print!("{}{}", verdict.text(), if verdict.text().ends_with('\n') { "" } else { "\n" });
                match verdict {
                    Verdict::Accepted(_) => 0,
                    Verdict::Refused(_) => 1,
                    Verdict::Unread(_) => 3,
                }
            }
            Err(fault) => {
                eprintln!("{name}: {fault}");
                2
            }
        };
        worst = worst.max(status);
    }
    ExitCode::from(worst)
}
