//! The images of the repository, their README and the runner's cases are what
//! the driver writes today.

use std::fs;
use std::path::PathBuf;
use std::process::Command;

use oracle::examples;
use oracle::runner::{line, listings, table};

fn repository() -> PathBuf {
    PathBuf::from(env!("CARGO_MANIFEST_DIR")).join("../..")
}

fn readme() -> String {
    fs::read_to_string(repository().join("images/README.md")).unwrap()
}

/// The cells of the table's rows below its head.
fn rows(text: &str) -> Vec<Vec<String>> {
    let rows = text.lines().filter(|line| line.starts_with('|')).skip(2);
    rows.map(|row| {
        let cells = row.trim_matches('|').split('|');
        cells.map(|cell| cell.trim().to_string()).collect()
    })
    .collect()
}

/// The third column is the line for the bytes that stand in the folder.
#[test]
fn the_readme_has_the_line_of_each_image() {
    let rows = rows(&readme());
    let mut files: Vec<String> = Vec::new();
    for row in &rows {
        let [file, _, printed, _] = row.as_slice() else {
            panic!("{row:?}");
        };
        let file = file.trim_matches('`').to_string();
        let image = fs::read(repository().join("images").join(&file)).unwrap();
        assert_eq!(*printed, format!("`{}`", line(&image)), "{file}");
        files.push(file);
    }
    files.push("README.md".to_string());
    files.sort();
    let found = fs::read_dir(repository().join("images")).unwrap();
    let names = found.map(|entry| entry.unwrap().file_name().into_string().unwrap());
    let mut names: Vec<String> = names.collect();
    names.sort();
    assert_eq!(names, files);
}

#[test]
fn the_readme_has_the_table_and_the_listings() {
    let readme = readme();
    assert!(readme.contains(&table()));
    assert!(readme.contains(&listings()));
}

#[test]
fn the_images_are_those_of_the_examples() {
    for example in examples::all() {
        let file = repository().join("images").join(example.file);
        assert_eq!(fs::read(file).unwrap(), example.image, "{}", example.file);
    }
}

#[test]
fn the_runners_cases_are_those_of_the_command() {
    let output = Command::new(env!("CARGO_BIN_EXE_oracle"))
        .arg("runner-cases")
        .output()
        .unwrap();
    assert_eq!(output.status.code(), Some(0));
    let cases = fs::read(repository().join("tests/runner/cases")).unwrap();
    assert!(output.stdout == cases);
}

#[test]
fn images_are_written_to_the_folder_named() {
    let folder = std::env::temp_dir().join(format!("oracle-images-{}", std::process::id()));
    let status = Command::new(env!("CARGO_BIN_EXE_oracle"))
        .arg("images")
        .arg(&folder)
        .status()
        .unwrap();
    let written = examples::all().iter().all(|example| {
        fs::read(folder.join(example.file)).is_ok_and(|image| image == example.image)
    });
    fs::remove_dir_all(&folder).unwrap();
    assert_eq!(status.code(), Some(0));
    assert!(written);
}
