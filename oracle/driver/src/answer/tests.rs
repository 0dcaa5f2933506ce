use super::*;
use crate::image::Record;
use crate::sample::{self, call, hex, jump, load, plain, ret, single, three, Function};

/// The limits of `CoreAdmissionProfile::safe`.
const SAFE: &str = "256 256 64 8192 1000000";

fn good(line: &str) -> String {
    answer(line.as_bytes()).unwrap_or_else(|| panic!("{line}: bad line"))
}

fn validate(limits: &str, image: &[u8]) -> String {
    good(&format!("validate {limits} {}", hex(image)))
}

/// A run's answer without the digest.
fn run(fuel: u64, depth: u16, image: &[u8]) -> String {
    let line = good(&format!("run {fuel} {depth} {}", hex(image)));
    let (words, _digest) = line.rsplit_once(' ').unwrap();
    words.to_string()
}

fn function(regs: u16, instrs: Vec<Record>) -> Function {
    Function { regs, instrs }
}

#[test]
fn the_example_of_document_01_runs() {
    let line = good(&format!("run 1000000 64 {}", sample::DOCUMENT_IMAGE));
    let words = [0, 3, 4_294_967_295, 0, 2];
    let prime = (1u64 << 44) + 435;
    let digest = words.iter().fold(0xcbf2_9ce4_8422_2325, |acc: u64, word| {
        (acc ^ word).wrapping_mul(prime)
    });
    assert_eq!(line, format!("done 0 3 4294967295 2 {digest}"));
}

#[test]
fn a_good_program_is_admitted() {
    let image = sample::DOCUMENT_IMAGE;
    assert_eq!(good(&format!("validate {SAFE} {image}")), "admitted");
    assert_eq!(good(&format!("validate 1 1 1 2 1 {image}")), "admitted");
    assert_eq!(
        good(&format!(
            "validate 16384 4096 1024 1000000 1000000000 {image}"
        )),
        "admitted"
    );
}

#[test]
fn verdict_10_profile_names_kind_and_field() {
    let image = single(1, vec![ret(0)]);
    let cases = [
        ("0 0 0 0 0", "0 1"),
        ("65535 0 0 0 0", "0 2"),
        ("65535 65535 0 0 0", "0 3"),
        ("65535 65535 65535 0 0", "0 4"),
        ("65535 65535 65535 4294967295 0", "0 5"),
        ("16385 4097 1025 1000001 1000000001", "1 1"),
        ("16384 4097 1025 1000001 1000000001", "1 2"),
        ("16384 4096 1025 1000001 1000000001", "1 3"),
        ("16384 4096 1024 1000001 1000000001", "1 4"),
        ("16384 4096 1024 1000000 1000000001", "1 5"),
    ];
    for (limits, fields) in cases {
        assert_eq!(
            validate(limits, &image),
            format!("refused 10 {fields}"),
            "{limits}"
        );
    }
    // The profile is looked at before the program.
    assert_eq!(
        validate("1 1 1 1 0", &sample::image(0, &[])),
        "refused 10 0 5"
    );
}

#[test]
fn verdict_11_empty_program_has_no_field() {
    assert_eq!(validate(SAFE, &sample::image(9, &[])), "refused 11");
}

#[test]
fn verdict_12_invalid_entry() {
    let image = sample::image(1, &[function(1, vec![ret(0)])]);
    assert_eq!(validate(SAFE, &image), "refused 12 1");
}

#[test]
fn verdict_13_too_many_functions_comes_before_the_entry() {
    let image = sample::image(7, &[function(1, vec![ret(0)]), function(1, vec![ret(0)])]);
    assert_eq!(validate("1 1 1 1 1", &image), "refused 13 2 1");
    assert_eq!(validate("1 2 1 1 1", &image), "refused 12 7");
}

#[test]
fn verdict_14_too_many_registers() {
    assert_eq!(validate(SAFE, &single(256, vec![ret(0)])), "admitted");
    assert_eq!(
        validate(SAFE, &single(257, vec![ret(0)])),
        "refused 14 0 257 256"
    );
}

#[test]
fn verdict_15_too_many_instructions() {
    let image = sample::image(
        0,
        &[function(1, vec![ret(0)]), function(1, vec![ret(0), ret(0)])],
    );
    assert_eq!(validate("1 2 1 2 1", &image), "admitted");
    assert_eq!(validate("1 2 1 1 1", &image), "refused 15 1 2 1");
}

#[test]
fn verdict_16_invalid_register_names_dst_then_lhs_then_rhs() {
    let with = |record| single(2, vec![record, ret(0)]);
    assert_eq!(validate(SAFE, &with(three(23, 4, 5, 6))), "refused 16 0 4");
    assert_eq!(validate(SAFE, &with(three(23, 1, 5, 6))), "refused 16 0 5");
    assert_eq!(validate(SAFE, &with(three(23, 1, 1, 6))), "refused 16 0 6");
    assert_eq!(validate(SAFE, &with(three(23, 1, 1, 1))), "admitted");
    // The condition of a jump comes before its target.
    let condition = Record {
        a: 2,
        w: 9,
        ..plain(52)
    };
    assert_eq!(validate(SAFE, &with(condition)), "refused 16 0 2");
}

#[test]
fn verdict_17_invalid_jump() {
    assert_eq!(
        validate(SAFE, &single(1, vec![jump(1), ret(0)])),
        "admitted"
    );
    assert_eq!(
        validate(SAFE, &single(1, vec![jump(2), ret(0)])),
        "refused 17 0 2"
    );
}

#[test]
fn verdict_18_invalid_call() {
    let image = single(1, vec![call(0, 1, 9, 9), ret(0)]);
    assert_eq!(validate(SAFE, &image), "refused 18 0 1");
}

#[test]
fn verdict_19_missing_return() {
    // Document 01: regs 0 under `safe`, a lone Nop and a lone Ret.
    assert_eq!(validate(SAFE, &single(0, vec![plain(0)])), "refused 19 0");
    assert_eq!(validate(SAFE, &single(0, vec![ret(0)])), "refused 16 0 0");
    assert_eq!(validate(SAFE, &single(0, vec![])), "refused 19 0");
}

#[test]
fn verdict_20_invalid_arg_window() {
    // Document 01: arg_base 1 of 1 with no arguments is admitted, 2 is not.
    let with = |base, count| single(1, vec![call(0, 0, base, count), ret(0)]);
    assert_eq!(validate(SAFE, &with(1, 0)), "admitted");
    assert_eq!(validate(SAFE, &with(2, 0)), "refused 20 0 2 0");
    assert_eq!(
        validate(SAFE, &with(65_535, 65_535)),
        "refused 20 0 65535 65535"
    );
    // The caller has room for two arguments, the callee for one.
    let caller = function(2, vec![call(0, 1, 0, 2), ret(0)]);
    let image = sample::image(0, &[caller, function(1, vec![ret(0)])]);
    assert_eq!(validate(SAFE, &image), "refused 20 0 0 2");
}

#[test]
fn runs_end_as_document_01_says() {
    // Fuel 0: a place at the length is InvalidPc, one inside FuelExceeded.
    assert_eq!(run(0, 1, &single(0, vec![])), "done 1 0 0 0");
    assert_eq!(run(0, 1, &single(0, vec![plain(0)])), "done 6 0 0 0");
    assert_eq!(run(7, 1, &single(0, vec![jump(0)])), "done 6 0 0 7");
    // Depth 0, fuel 5, a Call to function 9 of 1.
    assert_eq!(
        run(5, 0, &single(1, vec![call(0, 9, 0, 0)])),
        "done 7 0 0 1"
    );
    assert_eq!(
        run(5, 2, &single(1, vec![call(0, 9, 0, 0)])),
        "done 8 0 0 1"
    );
    // An entry that does not exist, with and without functions.
    assert_eq!(run(5, 1, &sample::image(0, &[])), "done 8 0 0 0");
    assert_eq!(
        run(5, 1, &sample::image(1, &[function(0, vec![])])),
        "done 8 0 0 0"
    );
    assert_eq!(run(5, 1, &single(1, vec![plain(1)])), "done 10 0 0 1");
    let assert_false = vec![load(5, 0, 0, 0), Record { a: 0, ..plain(2) }];
    assert_eq!(run(5, 1, &single(1, assert_false)), "done 9 0 0 2");
}

#[test]
fn a_call_looks_at_its_dst_only_on_return() {
    let program = |dst, src| {
        let caller = function(1, vec![call(dst, 1, 0, 0), ret(0)]);
        sample::image(0, &[caller, function(1, vec![load(7, 0, 0, 5), ret(src)])])
    };
    assert_eq!(run(9, 2, &program(0, 0)), "done 0 4 5 4");
    assert_eq!(run(9, 2, &program(1, 0)), "done 2 0 0 3");
    assert_eq!(run(9, 1, &program(0, 0)), "done 7 0 0 1");
}

#[test]
fn the_whole_range_of_fuel_and_depth_is_taken() {
    let image = sample::DOCUMENT_IMAGE;
    assert!(good(&format!("run {} 65535 {image}", u64::MAX)).starts_with("done 0 3 "));
    assert!(good(&format!("run 0 0 {image}")).starts_with("done 6 0 0 0 "));
}

#[test]
fn an_image_with_a_fault_is_refused() {
    assert_eq!(good("run 1 1 -"), "refused 1 0");
    assert_eq!(good(&format!("validate {SAFE} 00")), "refused 1 0");
    let wrong_opcode = single(0, vec![plain(0), plain(56)]);
    assert_eq!(
        good(&format!("run 0 0 {}", hex(&wrong_opcode))),
        "refused 5 1"
    );
    // Image faults come before anything else, a bad profile too.
    assert_eq!(validate("0 0 0 0 0", &wrong_opcode), "refused 5 1");
    let mut image = single(0, vec![plain(0)]);
    image[30] = 1;
    assert_eq!(validate(SAFE, &image), "refused 4 0");
    image[20] += 1;
    assert_eq!(validate(SAFE, &image), "refused 3 0");
    image[0] = 2;
    assert_eq!(validate(SAFE, &image), "refused 2 0");
}

#[test]
fn any_other_malformed_line_is_a_bad_line() {
    let image = sample::DOCUMENT_IMAGE;
    let lines = [
        String::new(),
        " ".to_string(),
        "run".to_string(),
        "validate".to_string(),
        "operate".to_string(),
        format!("walk 1 1 {image}"),
        format!("Run 1 1 {image}"),
        format!("run 1 {image}"),
        format!("run 1 1 1 {image}"),
        format!("run  1 1 {image}"),
        format!(" run 1 1 {image}"),
        format!("run 1 1 {image} "),
        format!("run 1 1 {image}\r"),
        format!("run 1\t1 {image}"),
        format!("run -1 1 {image}"),
        format!("run +1 1 {image}"),
        format!("run 01 1 {image}"),
        format!("run 18446744073709551616 1 {image}"),
        format!("run 1 65536 {image}"),
        format!("run 1 1 {}", image.to_uppercase()),
        format!("run 1 1 {}", &image[1..]),
        "run 1 1 ".to_string(),
        "run 1 1 --".to_string(),
        format!("validate 1 1 1 1 {image}"),
        format!("validate 1 1 1 1 1 1 {image}"),
        format!("validate 65536 1 1 1 1 {image}"),
        format!("validate 1 65536 1 1 1 {image}"),
        format!("validate 1 1 65536 1 1 {image}"),
        format!("validate 1 1 1 4294967296 1 {image}"),
        format!("validate 1 1 1 1 18446744073709551616 {image}"),
        // Wrong in both ways: the line comes first.
        "run x 1 -".to_string(),
    ];
    for line in lines {
        assert_eq!(answer(line.as_bytes()), None, "{line:?}");
    }
    assert_eq!(answer(b"run 1 1 \xff\xff"), None);
}
