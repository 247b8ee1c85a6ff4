//! What the language page and the examples say is what this interpreter answers.

use std::fs;
use std::path::{Path, PathBuf};

use oracle::answer;

fn root() -> PathBuf {
    Path::new(env!("CARGO_MANIFEST_DIR")).join("..")
}

/// The lines inside the fences of this sort.
fn fenced<'t>(page: &'t str, sort: &str) -> Vec<&'t str> {
    let fence = format!("```{sort}");
    let mut inside = false;
    let mut lines = Vec::new();
    for line in page.lines() {
        match line {
            _ if line == fence => inside = true,
            "```" => inside = false,
            _ if inside => lines.push(line),
            _ => {}
        }
    }
    lines
}

#[test]
fn answers_of_the_language_page() {
    let page = fs::read_to_string(root().join("docs/LANGUAGE.md")).expect("the language page");
    let mut script = "";
    let mut checked = 0;
    for line in fenced(&page, "answers") {
        match line.strip_prefix("    ") {
            None => script = line,
            Some(expected) => {
                let answer = answer::run(script.as_bytes());
                let found = answer.lines().any(|line| line == expected);
                assert!(found, "{script}\nexpected {expected}\nfound {answer}");
                checked += 1;
            }
        }
    }
    assert!(checked > 60);
}

#[test]
fn the_first_script_of_the_language_page() {
    let page = fs::read_to_string(root().join("docs/LANGUAGE.md")).expect("the language page");
    let (_, rest) = page.split_once("```c\n").expect("a script");
    let (script, rest) = rest.split_once("```").expect("its end");
    let answer = answer::run(script.as_bytes());
    assert!(rest.contains(&format!("```\n{answer}```")), "{answer}");
}

#[test]
fn the_token_listing_of_the_language_page() {
    let page = fs::read_to_string(root().join("docs/LANGUAGE.md")).expect("the language page");
    assert!(page.contains(&answer::tokens(b"int main(){return 'a';}")));
}

#[test]
fn examples_print_what_is_expected() {
    let mut checked = 0;
    for entry in fs::read_dir(root().join("examples")).expect("the examples") {
        let path = entry.expect("an example").path();
        if path.extension().is_some_and(|extension| extension == "fennec") {
            let script = fs::read(&path).expect("a script");
            let expected = fs::read_to_string(path.with_extension("expected")).expect("its output");
            assert_eq!(answer::run(&script), expected, "{}", path.display());
            checked += 1;
        }
    }
    assert!(checked >= 5);
}
