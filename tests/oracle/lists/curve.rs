//! Curve correction: whole tables as steps from answer to answer, and single answers with the refusals.
use oracle::answers;
use oracle::curve::Chip;
use oracle::rules::number;

use crate::list::List;

fn chip(number: u8, minor: u8) -> Chip {
    Chip::numbered(number, minor).expect("nine chips")
}

/// Every curve over line answers 0 to 4095.
pub fn tables() -> List {
    let mut list = List::new("curve_cases", "tables", 4 + 4096);
    for index in 0..9 {
        for minor in if index == 4 { vec![1, 2] } else { vec![0] } {
            for (unit, atten) in [0, 1].into_iter().flat_map(|unit| [0, 1, 2, 3].map(|atten| (unit, atten))) {
                if number(&answers::correct(chip(index, minor), unit, atten, 0)) == 14 {
                    continue;
                }
                list.u8(index).u8(minor).u8(unit).u8(atten);
                let mut before = 0;
                for line in 0..4096 {
                    let answer = i32::from(answers::correct(chip(index, minor), unit, atten, line).expect("a curve"));
                    list.u8(i8::try_from(answer - before).expect("a small step") as u8);
                    before = answer;
                }
            }
        }
    }
    list
}

/// Every chip with units, attenuations and line answers at and past their ends.
pub fn single() -> List {
    let mut list = List::new("curve_cases", "single", 12);
    for index in 0..9 {
        for minor in if index == 4 { vec![0, 1, 2, 3, 255] } else { vec![0] } {
            for unit in [0, 1, 2, 255] {
                for atten in [0, 1, 2, 3, 4, 255] {
                    for line in [0, 1, 2500, 4095, 4096, 65535] {
                        let answer = answers::correct(chip(index, minor), unit, atten, line);
                        list.u8(index).u8(minor).u8(unit).u8(atten).u16(line);
                        list.u16(answer.unwrap_or(0)).u8(number(&answer)).zeros(3);
                    }
                }
            }
        }
    }
    list
}
