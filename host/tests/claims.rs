//! docs/CLAIMS.md is held to the tree: each definition, contract, edit and run that it names is there, and its quotations are the documents'.

use std::fs;
use std::path::{Path, PathBuf};

/// The repository.
fn root() -> PathBuf {
    Path::new(env!("CARGO_MANIFEST_DIR")).join("..")
}

/// A row: the quotation, what says it, edits, runs, what is not covered.
fn rows() -> Vec<Vec<String>> {
    let text = fs::read_to_string(root().join("docs/CLAIMS.md")).unwrap();
    let rows = text.lines().filter(|line| line.starts_with("| \""));
    rows.map(|row| row.trim_matches('|').split('|').map(|cell| cell.trim().to_string()).collect()).collect()
}

/// The names between backticks.
fn named(cell: &str) -> Vec<&str> {
    cell.split('`').skip(1).step_by(2).collect()
}

/// Whether a line gives the name its meaning: in code its `fn` or `struct`, in definitions its signature.
fn defines(line: &str, name: &str, code: bool) -> bool {
    let mut words = line.split(|c: char| c.is_whitespace() || (code && "(<".contains(c))).filter(|word| !word.is_empty());
    if code {
        return words.any(|word| ["fn", "struct"].contains(&word)) && words.next() == Some(name);
    }
    let block = words.clone().take(3).any(|word| ["record", "data"].contains(&word));
    words.find(|word| !["pub", "abbrev", "unfoldable", "record", "data"].contains(word)) == Some(name)
        && (block || words.next() == Some(":"))
}

/// What is wrong with a reference `FILE: name, name` below a folder, or with a plain path.
fn missing(folder: &str, reference: &str) -> Option<String> {
    let (file, names) = reference.split_once(": ").unwrap_or((reference, ""));
    let path = root().join(folder).join(file);
    if names.is_empty() {
        return (!path.exists()).then(|| format!("there is no {folder}{file}"));
    }
    let Ok(text) = fs::read_to_string(&path) else { return Some(format!("there is no {folder}{file}")) };
    let code = !file.ends_with(".antt");
    let lost: Vec<&str> = names.split(", ").filter(|name| !text.lines().any(|line| defines(line, name, code))).collect();
    (!lost.is_empty()).then(|| format!("{folder}{file} defines no {}", lost.join(", ")))
}

#[test]
fn every_name_is_in_the_tree() {
    let rows = rows();
    assert!(rows.len() > 60, "{} rows", rows.len());
    let mut wrong = vec![];
    for row in &rows {
        assert_eq!(row.len(), 5, "{row:?}");
        wrong.extend(named(&row[1]).into_iter().filter_map(|name| missing("crates/", name)));
        for edit in named(&row[2]) {
            let (name, label) = edit.split_once('/').unwrap_or_else(|| panic!("'{edit}' is no edit"));
            wrong.extend(missing("crates/", &format!("{name}/must-fail/{label}.edit")));
        }
        wrong.extend(named(&row[3]).into_iter().filter_map(|name| missing("", name)));
    }
    assert!(wrong.is_empty(), "docs/CLAIMS.md:\n{}", wrong.join("\n"));
}

/// The quotation of a row, in its parts: ` .. ` stands for what is left out.
fn parts(row: &[String]) -> Vec<String> {
    let quoted = row[0].strip_prefix('"').and_then(|cell| cell.rsplit_once('"')).unwrap_or_else(|| panic!("{row:?}")).0;
    quoted.split(" .. ").map(|part| part.to_string()).collect()
}

/// Where the parts stand one after another in a paragraph.
fn within(paragraph: &str, parts: &[String]) -> bool {
    let mut rest = paragraph;
    parts.iter().all(|part| rest.find(part.as_str()).map(|at| rest = &rest[at + part.len()..]).is_some())
}

/// Documents 01 and 02 and the demands, where they stand beside the repository.
fn documents() -> Option<[String; 3]> {
    let read = |name: &str| fs::read_to_string(root().join("../shared/docs").join(name)).ok();
    let found = read("src/01-scope.md").zip(read("src/02-change-requests.md")).zip(read("demands.md"));
    let found = found.map(|((scope, orders), demands)| [scope, orders, demands]);
    if found.is_none() {
        eprintln!("no documents beside the repository: not compared");
    }
    found
}

/// With the documents beside the repository: every quotation is theirs, letter by letter; every paragraph of document 01 has a row, and every order of
/// document 02 whose note stands in docs/orders; and the rows of the three demands have all of their words.
#[test]
fn every_quotation_is_the_documents() {
    let Some([scope, orders, demands]) = documents() else { return };
    let landed = |line: &&str| {
        let number = line.strip_prefix("**order ").and_then(|rest| rest.split_once(':')).and_then(|(number, _)| number.parse::<u32>().ok());
        number.is_some_and(|number| root().join(format!("docs/orders/{number:02}.md")).exists())
    };
    // A bar would end the cell; the documents have none.
    let mut paragraphs: Vec<&str> = scope.lines().filter(|line| !line.is_empty() && !line.starts_with('#')).collect();
    paragraphs.extend(orders.lines().filter(landed));
    let mut three: Vec<String> = demands
        .lines()
        .filter(|line| ["> 1. ", "> 2. ", "> 3. "].iter().any(|n| line.starts_with(n)))
        .map(|line| line[5..].to_string())
        .collect();
    assert_eq!(three.len(), 3);
    let rows = rows();
    let mut wrong = vec![];
    for row in &rows {
        let parts = parts(row);
        if !paragraphs.iter().any(|paragraph| within(paragraph, &parts)) && !three.iter().any(|demand| within(demand, &parts)) {
            wrong.push(format!("not the documents' words: {}", row[0]));
        }
    }
    for paragraph in paragraphs {
        if !rows.iter().any(|row| within(paragraph, &parts(row))) {
            wrong.push(format!("no row for: {paragraph}"));
        }
    }
    for row in &rows {
        for demand in &mut three {
            *demand = demand.replacen(&parts(row)[0], "", 1);
        }
    }
    wrong.extend(
        three.iter().filter(|rest| rest.contains(char::is_alphanumeric)).map(|rest| format!("no row for the demand's words: {rest}")),
    );
    assert!(wrong.is_empty(), "docs/CLAIMS.md:\n{}", wrong.join("\n"));
}

/// The comments of a file of crates/, one for each stretch of lines.
fn comments(path: &Path) -> Vec<String> {
    let text = fs::read_to_string(path).unwrap();
    let edit = path.extension().is_some_and(|end| end == "edit");
    let mut blocks = vec![String::new()];
    for line in text.lines().map(str::trim) {
        let comment = if edit {
            (!["file:", "old:", "new:"].iter().any(|word| line.starts_with(word))).then_some(line)
        } else {
            line.strip_prefix("--").or(line.strip_prefix("//"))
        };
        match comment {
            Some(words) => *blocks.last_mut().unwrap() += &format!(" {words}"),
            None => blocks.push(String::new()),
        }
    }
    blocks
}

/// The files below a folder.
fn files(folder: &Path) -> Vec<PathBuf> {
    let Ok(entries) = fs::read_dir(folder) else { return vec![] };
    let paths = entries.map(|entry| entry.unwrap().path());
    paths.flat_map(|path| if path.is_dir() { files(&path) } else { vec![path] }).collect()
}

/// In the comments of the crates quotation marks are for the documents' own words; ".." marks what is left out.
#[test]
fn quotation_marks_are_for_the_documents() {
    let Some(documents) = documents() else { return };
    let plain = |text: &str| text.split_whitespace().filter(|word| *word != ">").collect::<Vec<_>>().join(" ");
    let documents = documents.map(|document| plain(&document));
    let mut wrong = vec![];
    for name in fs::read_dir(root().join("crates")).unwrap() {
        let name = name.unwrap().path();
        for path in ["specs", "proofs", "src", "must-fail"].iter().flat_map(|part| files(&name.join(part))) {
            for comment in comments(&path) {
                for quoted in comment.split('"').skip(1).step_by(2) {
                    let known = |part: &str| documents.iter().any(|document| document.contains(part));
                    if !quoted.split("..").map(plain).all(|part| known(&part)) {
                        wrong.push(format!("{}: \"{quoted}\"", path.display()));
                    }
                }
            }
        }
    }
    assert!(wrong.is_empty(), "not the documents' words:\n{}", wrong.join("\n"));
}
