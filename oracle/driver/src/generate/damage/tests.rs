use super::*;
use crate::generate::typed;
use crate::image::read;
use crate::program::{header, Program};

/// Images of programs in order with at least so many functions.
fn images(functions: usize) -> impl Iterator<Item = (SplitMix64, Program, Vec<u8>)> {
    (0..400)
        .map(|number| {
            let mut random = SplitMix64::for_case(3, number);
            let program = typed::program(&mut random);
            let image = program.image();
            (random, program, image)
        })
        .filter(move |(_, program, _)| program.functions.len() >= functions)
}

fn shape(image: &[u8]) -> Shape {
    Shape {
        functions: get(image, FUNCTIONS) as usize,
        instructions: get(image, INSTRUCTIONS) as usize,
    }
}

fn fault(image: &[u8]) -> Option<(u32, u32)> {
    read(image).err().map(|f| (f.number(), f.answer()))
}

#[test]
fn wrapped_counts_look_right_in_32_bits_only() {
    for (mut random, program, mut image) in images(1) {
        let shape = shape(&image);
        wrapped_counts(&mut random, shape, &mut image);
        let (functions, instructions) = (get(&image, FUNCTIONS), get(&image, INSTRUCTIONS));
        assert_eq!(image[..24], header(program.entry, functions, instructions));
        assert_eq!(fault(&image), Some((3, 0)));
    }
}

#[test]
fn wrapped_joins_look_right_in_32_bits_only() {
    for (_, _, mut image) in images(2) {
        let shape = shape(&image);
        wrapped_joins(shape, &mut image);
        let counts = (0..shape.functions).map(|n| get(&image, shape.function(n) + COUNT));
        let sum = counts.fold(0, u32::wrapping_add);
        assert_eq!(sum as usize, shape.instructions);
        assert_eq!(fault(&image), Some((4, 2)));
    }
}

#[test]
fn a_moved_border_is_no_fault_of_the_image() {
    for (mut random, _, mut image) in images(2) {
        let shape = shape(&image);
        moved_border(&mut random, shape, &mut image);
        assert_eq!(fault(&image), None);
    }
}

#[test]
fn instructions_of_no_function_fail_the_sum_alone() {
    for (_, _, mut image) in images(1) {
        let shape = shape(&image);
        instructions_of_no_function(shape, &mut image);
        assert_eq!(fault(&image), Some((4, 0)));
    }
}

#[test]
fn records_read_as_the_other_table_keep_the_layout() {
    for (mut random, _, mut image) in images(1) {
        let shape = shape(&image);
        records_of_the_other_table(&mut random, shape, &mut image);
        assert!(!matches!(fault(&image), Some((1..=3, _))));
    }
}

#[test]
fn one_unused_field_is_enough() {
    for (mut random, _, mut image) in images(1) {
        let shape = shape(&image);
        unused_field(&mut random, shape, &mut image);
        assert!(matches!(fault(&image), Some((5, _))));
    }
}

/// Damage never asks for bytes that an earlier one has cut off.
#[test]
fn an_image_cut_short_can_be_damaged_again() {
    for (mut random, _, image) in images(1) {
        let shape = shape(&image);
        for length in [0, 1, 23, 24, 40, image.len() - 1] {
            let mut short = image[..length.min(image.len())].to_vec();
            for _ in 0..40 {
                one(&mut random, shape, &mut short);
                short.truncate(length);
            }
        }
    }
}
