use super::*;
use crate::generate::typed;
use crate::verdict::of_image;

#[test]
fn what_a_program_needs_is_enough_and_one_less_is_not() {
    for number in 0..500 {
        let mut random = SplitMix64::for_case(4, number);
        let program = typed::program(&mut random);
        let image = program.image();
        let enough = exact(&mut random, &program);
        assert_eq!(of_image(&image, enough).number, 0);
        let less = one_less(&mut random, &program);
        assert!(matches!(of_image(&image, less).number, 10 | 13..=15));
    }
}

#[test]
fn most_limits_are_usable() {
    let mut random = SplitMix64(1);
    let program = typed::program(&mut random);
    let usable = (0..1_000)
        .filter(|_| profile(&mut random, &program).validate().is_ok())
        .count();
    assert!(usable > 750 && usable < 1_000, "{usable}");
}
