use super::*;
use crate::answer::answer;
use crate::image::Record;
use crate::program::Program;
use crate::records::{call, load, plain, ret, three};
use crate::text::hex;
use crate::verdict::{of_image, Answer};

fn single(regs: u16, instrs: &[Record]) -> String {
    hex(&Program::single(regs, instrs.to_vec()).image())
}

/// The operation on two loaded words, as the worked cases have it.
fn operation(opcode: u8, [lhs, rhs]: [Record; 2]) -> String {
    let image = single(3, &[lhs, rhs, three(opcode, 2, 0, 1), ret(2)]);
    format!("run 100 1 {image}")
}

fn fixed(lhs: i32, rhs: i32) -> [Record; 2] {
    [load(8, 0, 0, lhs as u32), load(8, 1, 0, rhs as u32)]
}

const SAFE: &str = "validate 256 256 64 8192 1000000";

/// Document 01's two sides of each edge, with the answers that it gives.
fn edges() -> Vec<(String, &'static str)> {
    let minimum = [load(6, 0, 0, 1 << 31), load(6, 1, 0, u32::MAX)];
    let zero = |opcode| [load(5, 0, 1, 0), load(opcode, 1, 0, 0)];
    let falsehood = [load(5, 0, 0, 0), load(6, 1, 0, 7)];
    let calls = |base| single(1, &[call(0, 0, base, 0), ret(0)]);
    vec![
        (operation(43, fixed(-1, 1)), "done 0 5 4294967295 4 "),
        (operation(44, fixed(-1, 131_072)), "done 0 5 0 4 "),
        (operation(44, fixed(32_768, -1)), "done 0 5 2147483648 4 "),
        (operation(44, fixed(32_768, 1)), "done 5 0 0 3 "),
        (operation(26, minimum), "done 5 0 0 3 "),
        (operation(26, zero(6)), "done 4 0 0 3 "),
        (operation(44, zero(8)), "done 3 0 0 3 "),
        (operation(19, falsehood), "done 0 2 0 4 "),
        (format!("run 0 1 {}", single(1, &[])), "done 1 0 0 0 "),
        (format!("run 0 1 {}", single(1, &[ret(0)])), "done 6 0 0 0 "),
        (
            format!("run 5 0 {}", single(1, &[call(0, 9, 0, 0), ret(0)])),
            "done 7 0 0 1 ",
        ),
        (format!("{SAFE} {}", single(0, &[plain(0)])), "refused 19 0"),
        (format!("{SAFE} {}", single(0, &[ret(0)])), "refused 16 0 0"),
        (format!("{SAFE} {}", calls(1)), "admitted"),
        (format!("{SAFE} {}", calls(2)), "refused 20 0 2 0"),
        (format!("{SAFE} {}", single(256, &[ret(255)])), "admitted"),
        (
            format!("{SAFE} {}", single(257, &[ret(0)])),
            "refused 14 0 257 256",
        ),
    ]
}

#[test]
fn the_edges_of_document_01_are_there() {
    let lines: HashSet<String> = List::new().lines().collect();
    for (line, expected) in edges() {
        assert!(lines.contains(&line), "{line}");
        let found = answer(line.as_bytes()).unwrap();
        let whole = found == expected || expected.ends_with(' ');
        assert!(whole && found.starts_with(expected), "{line}: {found}");
    }
}

#[test]
fn no_line_is_there_twice_and_no_cases_alone_have_no_answer() {
    let list = List::new();
    let lines: Vec<String> = list.lines().collect();
    let distinct: HashSet<&String> = lines.iter().collect();
    assert_eq!(distinct.len(), lines.len());
    let cases = lines.len() - list.no_cases.len();
    for (at, line) in lines.iter().enumerate() {
        let found = answer(line.as_bytes());
        assert_eq!(found.is_some(), at < cases, "{line:?}");
    }
    for line in no_cases::good() {
        assert!(answer(line.as_bytes()).is_some(), "{line:?}");
    }
}

#[test]
fn a_few_hundred_lines_are_about_programs() {
    let list = List::new();
    let programs = list.verdicts.len() + list.runs.len();
    assert!((300..=600).contains(&programs), "{programs}");
    let longest = list.lines().map(|line| line.len()).max().unwrap();
    assert!(longest < 4_100, "{longest}");
    // One image is as long as it may be, and one run takes all the words.
    assert!(list.runs.iter().any(|case| case.image.len() == MOST_BYTES));
    assert!(list.runs.iter().any(|case| {
        let functions = crate::image::check(&case.image).map_or(vec![], |t| t.functions);
        let regs = functions.iter().map(|f| usize::from(f.regs)).max();
        regs.unwrap_or(0) * usize::from(case.limits.max_call_depth) == MOST_WORDS
    }));
}

#[test]
fn the_list_lacks_nothing() {
    assert_eq!(coverage::missing(&List::new()), [""; 0]);
}

#[test]
fn what_is_left_out_is_named() {
    let mut list = List::new();
    list.verdicts.retain(|case| {
        let Answer { number, words } = of_image(&case.image, case.profile);
        number != 10 || words[..2] != [1, 3]
    });
    assert_eq!(coverage::missing(&list), ["verdict 10 1 3"]);
    let mut list = List::new();
    list.runs.retain(|case| case.answer().words[0] != 4);
    assert_eq!(coverage::missing(&list), ["run of status 4"]);
    let mut list = List::new();
    list.runs.retain(|case| case.limits.fuel > 0);
    assert_eq!(coverage::missing(&list), ["run with fuel 0"]);
    let mut list = List::new();
    list.runs.clear();
    let missing = coverage::missing(&list);
    assert_eq!(missing.len(), 11 + 5 + 56 + 7);
    assert!(missing.contains(&"begun opcode 55".to_string()));
}

#[test]
fn what_is_too_large_is_named() {
    let mut list = List::new();
    let mut case = list.runs[0].clone();
    case.limits.max_call_depth = MOST_DEPTH + 1;
    list.runs.push(case.clone());
    case.limits.max_call_depth = MOST_DEPTH;
    case.image = Program::single(257, vec![ret(0)]).image();
    list.runs.push(case);
    let mut case = list.verdicts[0].clone();
    case.image = Program::single(1, vec![ret(0); 164]).image();
    list.verdicts.push(case);
    let missing = coverage::missing(&list);
    assert_eq!(missing.len(), 3, "{missing:?}");
}
