use std::collections::BTreeSet;

use super::cases::images;
use super::*;
use crate::examples;
use crate::image::check;
use crate::program::DOCUMENT_IMAGE;
use crate::text::hex_bytes;

fn words(line: &str) -> Vec<&str> {
    line.split(' ').collect()
}

fn lines() -> Vec<String> {
    images().iter().map(|image| line(image)).collect()
}

#[test]
fn the_line_of_document_01() {
    let image = hex_bytes(DOCUMENT_IMAGE.as_bytes()).unwrap();
    assert_eq!(line(&image), "done 0 3 4294967295 2");
    assert_eq!(images()[0], image);
}

#[test]
fn the_buffer_holds_32768_bytes() {
    assert_eq!(line(&[0; 32_768]), "refused 2 0");
    assert_eq!(line(&[0; 32_769]), "refused 8 0");
    assert_eq!(line(&[]), "refused 1 0");
}

/// Where the reading has an end of a run, it is the Rust's.
#[test]
fn the_reading_ends_as_the_rust_does() {
    let examples = examples::all().into_iter().map(|example| example.image);
    for image in images().into_iter().chain(examples) {
        let reading = by_reading(&image, limits());
        if check(&image).is_ok() && reading.number == 0 {
            assert_eq!(reading, run::of_image(&image, limits()));
        }
    }
}

#[test]
fn every_status_and_every_kind_of_value_is_there() {
    let lines = lines();
    let done: Vec<Vec<&str>> = lines.iter().map(|line| words(line)).collect();
    let done = || done.iter().filter(|words| words[0] == "done");
    let statuses: BTreeSet<u64> = done().map(|words| words[1].parse().unwrap()).collect();
    assert_eq!(statuses, (0..=10).collect());
    let returned = done().filter(|words| words[1] == "0");
    let kinds: BTreeSet<&str> = returned.map(|words| words[2]).collect();
    assert_eq!(kinds, ["0", "1", "2", "3", "4", "5"].into());
}

/// Refusal 4 by a function's number and by the sum, 7 at the entry and at a
/// Call; 6 is not among them, since the records go as deep as the limit.
#[test]
fn every_refusal_that_can_be_is_there() {
    let lines = lines();
    let refused = lines
        .iter()
        .filter_map(|line| line.strip_prefix("refused "));
    let refused: BTreeSet<&str> = refused.collect();
    let expected = [
        "1 0", "2 0", "3 0", "4 0", "4 1", "4 2", "5 0", "5 1", "7 0", "7 2", "7 62",
    ];
    assert_eq!(refused, expected.into());
}

#[test]
fn fuel_registers_and_frames_are_met_on_both_sides() {
    let lines = lines();
    let has = |line: &str| lines.iter().any(|found| found == line);
    // All the fuel there is, a unit more than that, and one less.
    assert!(has("done 0 4 333332 1000000"));
    assert!(has("done 6 0 0 1000000"));
    assert!(has("done 0 4 333331 999999"));
    // 2,048 registers fit, at the entry and beside a caller.
    assert_eq!(line(&images()[images().len() - 7]), "done 0 4 9 2");
    assert!(has("done 0 4 9 5"));
    // 64 frames, whatever their registers.
    assert!(has("done 7 0 0 64"));
}

#[test]
fn images_are_short_and_there_once() {
    let all = images();
    assert!(all.iter().all(|image| image.len() <= 4_000));
    let distinct: BTreeSet<&Vec<u8>> = all.iter().collect();
    assert_eq!(distinct.len(), all.len());
}
