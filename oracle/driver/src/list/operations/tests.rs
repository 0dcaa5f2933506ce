use super::*;

fn has(cases: &HashSet<Case>, opcode: u8, lhs: Option<u64>, rhs: Option<u64>) -> bool {
    cases.contains(&Case {
        opcode,
        small: 0,
        w: 0,
        lhs,
        rhs,
    })
}

#[test]
fn the_list_has_no_line_twice_and_the_random_ones_on_top() {
    let cases = all();
    let random = cases.len() - RANDOM_PAIRS;
    let exhaustive: HashSet<Case> = cases[..random].iter().copied().collect();
    assert!(cases[random..]
        .iter()
        .all(|case| !exhaustive.contains(case)));
    let lines: HashSet<String> = cases.iter().map(Case::line).collect();
    assert_eq!(lines.len(), cases.len());
}

#[test]
fn each_line_has_56_bytes_and_reads_back() {
    for case in all() {
        let line = case.line();
        assert_eq!(line.len(), 56, "{line}");
        let fields: Vec<&[u8]> = line.split(' ').skip(1).map(str::as_bytes).collect();
        assert_eq!(Case::read(&fields), Some(case));
    }
}

#[test]
fn the_list_is_always_the_same() {
    assert_eq!(all(), all());
}

#[test]
fn every_opcode_from_3_to_50_is_there() {
    let opcodes: HashSet<u8> = all().iter().map(|case| case.opcode).collect();
    assert_eq!(opcodes, (3..=50).collect());
}

#[test]
fn every_pair_of_edges_is_there() {
    let cases: HashSet<Case> = all().into_iter().collect();
    for opcode in (9..=49).filter(|opcode| !one_operand(*opcode)) {
        let edges = edges(own_kind(opcode).unwrap());
        for lhs in &edges {
            for rhs in &edges {
                assert!(has(&cases, opcode, Some(*lhs), Some(*rhs)));
            }
        }
    }
    for opcode in (9..=50).filter(|opcode| one_operand(*opcode)) {
        for edge in KINDS.into_iter().flat_map(edges) {
            assert!(has(&cases, opcode, Some(edge), Some(0)));
        }
    }
}

#[test]
fn every_pair_of_kinds_and_every_missing_register_is_there() {
    let cases: HashSet<Case> = all().into_iter().collect();
    for opcode in 9..=50 {
        for lhs in representatives() {
            assert!(has(&cases, opcode, Some(lhs), None));
            assert!(has(&cases, opcode, None, Some(lhs)));
            for rhs in representatives() {
                assert!(has(&cases, opcode, Some(lhs), Some(rhs)));
            }
        }
        assert!(has(&cases, opcode, None, None));
    }
    // I32Div with a Bool on the left and zero on the right.
    assert!(has(&cases, 26, Some(word(BOOL, 1)), Some(word(I32, 0))));
}

#[test]
fn the_generator_is_splitmix64() {
    let mut random = SplitMix64(1_234_567);
    // The published first outputs for this seed.
    assert_eq!(random.next(), 6_457_827_717_110_365_317);
    assert_eq!(random.next(), 3_203_168_211_198_807_973);
}
