//! What lent memory holds after a run, and after a refusal.

use knitcauldron::{enough_room, execute, Frame, Limits, Needed, Refusal, Room, Trap, Value};

use crate::images::{call, document_01, load_bool, load_i32, patched, program, ret, NOP, TRAP};

/// What words are lent with. A run may not take them for anything.
const FILL: u64 = u64::MAX;

/// Words to lend, and what they are afterwards.
struct Lent {
    frames: Vec<u64>,
    registers: Vec<u64>,
}

impl Lent {
    fn new(frames: usize, registers: usize) -> Self {
        Self {
            frames: vec![FILL; frames],
            registers: vec![FILL; registers],
        }
    }

    fn room(&mut self) -> Room<'_> {
        Room {
            frame_words: &mut self.frames,
            register_words: &mut self.registers,
        }
    }

    /// Looks at what a run has written; everything after that must be as it was lent.
    #[track_caller]
    fn holds(&self, records: &[[u64; 4]], values: &[Value]) {
        let words: Vec<u64> = values.iter().map(|value| value.word()).collect();
        assert!(
            begins_with(&self.frames, records.as_flattened()),
            "{:?}",
            self.frames
        );
        assert!(begins_with(&self.registers, &words), "{:?}", self.registers);
    }
}

fn begins_with(lent: &[u64], written: &[u64]) -> bool {
    lent.starts_with(written) && lent[written.len()..].iter().all(|word| *word == FILL)
}

/// Two functions: the entry passes registers 1 and 2 on, the other one gives the first of them back.
fn passes_on() -> Vec<u8> {
    let entry = [load_i32(1, 7), load_bool(2, true), call(3, 1, 1, 2), ret(3)];
    program(0, &[(4, &entry), (4, &[ret(0)])])
}

#[test]
fn a_call_leaves_both_frames_and_their_registers() {
    let (unit, seven, truth) = (Value::Unit, Value::I32(7), Value::Bool(true));
    let mut lent = Lent::new(13, 10);
    let mut room = lent.room();
    let run = execute(&passes_on(), Limits::DEFAULT, &mut room).unwrap();
    assert_eq!(run.returned(), Ok(seven));
    let callee = Frame {
        function: 1,
        place: 0,
        return_register: 3,
        first_register: 4,
    };
    assert_eq!(room.frames().len(), 3); // the thirteenth word is no record
    assert_eq!(room.frames().nth(1), Some(callee));
    assert_eq!(room.frames().nth(2).map(|frame| frame.function), Some(FILL));
    lent.holds(
        &[[0, 3, 0, 0], [1, 0, 3, 4]],
        &[unit, seven, truth, seven, seven, truth, unit, unit],
    );
}

#[test]
fn a_trap_leaves_its_frame_at_the_instruction_at_fault() {
    let image = program(0, &[(1, &[NOP, call(0, 1, 0, 0)]), (1, &[NOP, NOP, TRAP])]);
    let mut lent = Lent::new(8, 2);
    let run = execute(&image, Limits::DEFAULT, &mut lent.room()).unwrap();
    assert_eq!(run.returned(), Err(Trap::ExplicitTrap));
    lent.holds(&[[0, 2, 0, 0], [1, 2, 0, 1]], &[Value::Unit; 2]);
}

#[test]
fn a_refused_call_leaves_the_state_before_it() {
    let image = program(0, &[(2, &[load_i32(0, 5), call(1, 0, 0, 1)])]);
    for (frames, registers) in [(7, 9), (8, 3)] {
        let mut lent = Lent::new(frames, registers);
        let refusal = execute(&image, Limits::DEFAULT, &mut lent.room()).unwrap_err();
        assert!(matches!(
            refusal,
            Refusal::FrameRoom { fuel_used: 2 } | Refusal::RegisterRoom { fuel_used: 2 }
        ));
        lent.holds(&[[0, 1, 0, 0]], &[Value::I32(5), Value::Unit]);
    }
}

#[test]
fn refused_entries_and_image_faults_leave_everything() {
    let fault = patched(document_01(), 0, 2);
    let wide = program(0, &[(3, &[ret(0)])]);
    for (image, frames, registers) in [(&fault, 8, 8), (&wide, 3, 8), (&wide, 8, 2)] {
        let mut lent = Lent::new(frames, registers);
        assert!(execute(image, Limits::DEFAULT, &mut lent.room()).is_err());
        lent.holds(&[], &[]);
    }
    let missing = program(1, &[(1, &[ret(0)])]);
    let mut lent = Lent::new(8, 8);
    assert!(execute(&missing, Limits::DEFAULT, &mut lent.room()).is_ok());
    lent.holds(&[], &[]);
}

#[test]
fn empty_room_is_taken_as_it_is() {
    let mut none = Room {
        frame_words: &mut [],
        register_words: &mut [],
    };
    assert_eq!(none.frames().next(), None);
    let refused = execute(&document_01(), Limits::DEFAULT, &mut none);
    assert_eq!(refused, Err(Refusal::FrameRoom { fuel_used: 0 }));
    // A function without registers needs none lent.
    let mut record = Room {
        frame_words: &mut [FILL; 4],
        register_words: &mut [],
    };
    let run = execute(&program(0, &[(0, &[TRAP])]), Limits::DEFAULT, &mut record).unwrap();
    assert_eq!(run.returned(), Err(Trap::ExplicitTrap));
}

#[test]
fn a_room_serves_one_run_after_the_other() {
    let mut lent = Lent::new(8, 8);
    let mut room = lent.room();
    for _ in 0..2 {
        let run = execute(&passes_on(), Limits::DEFAULT, &mut room).unwrap();
        assert_eq!((run.returned(), run.fuel_used), (Ok(Value::I32(7)), 5));
        let run = execute(&document_01(), Limits::DEFAULT, &mut room).unwrap();
        assert_eq!((run.returned(), run.fuel_used), (Ok(Value::I32(-1)), 2));
    }
}

#[test]
fn what_is_called_enough_is_enough_and_no_less() {
    let image = program(0, &[(5, &[call(0, 0, 0, 5), ret(0)])]);
    for max_call_depth in [0, 1, 2, 9] {
        let limits = Limits {
            fuel: 100,
            max_call_depth,
        };
        let ended = |Needed {
                         frame_words,
                         register_words,
                     }| {
            let mut lent = Lent::new(frame_words, register_words);
            let answer = execute(&image, limits, &mut lent.room());
            answer.map(|run| run.returned().unwrap_err())
        };
        let needed = enough_room(max_call_depth, 5);
        let fewer_frames = Needed {
            frame_words: needed.frame_words - 1,
            ..needed
        };
        let fewer_registers = Needed {
            register_words: needed.register_words - 1,
            ..needed
        };
        assert_eq!(ended(needed), Ok(Trap::CallDepthExceeded));
        assert!(matches!(
            ended(fewer_frames),
            Err(Refusal::FrameRoom { .. })
        ));
        assert!(matches!(
            ended(fewer_registers),
            Err(Refusal::RegisterRoom { .. })
        ));
    }
}

#[test]
fn the_largest_room_can_be_counted() {
    let largest = Needed {
        frame_words: 262_140,
        register_words: 4_294_836_225,
    };
    assert_eq!(enough_room(u16::MAX, u16::MAX), largest);
    let least = Needed {
        frame_words: 4,
        register_words: 0,
    };
    assert_eq!(enough_room(0, 0), least);
}
