//! Engines that write to lent memory what they must not, or take it for more
//! or less than it is.

use oracle::reading::RECORD;

use super::*;

/// An engine that does something to a callee's frame once it is pushed. It is
/// given the Call as well.
fn after_a_call(asked: Asked, change: impl Fn(&mut Run, Record)) -> u64 {
    playing(asked, |run| {
        let call = about_to(run, 54);
        run.round()?;
        if let Some(call) = call {
            change(run, call);
        }
        Ok(())
    })
}

/// An engine that does something to what a frame leaves once it is dropped. It
/// is given the number of that frame.
fn after_a_ret(asked: Asked, change: impl Fn(&mut Run, usize)) -> u64 {
    playing(asked, |run| {
        let ret = about_to(run, 55);
        run.round()?;
        if ret.is_some() {
            change(run, run.depth);
        }
        Ok(())
    })
}

/// An engine that does something where a Call finds no room.
fn at_a_refusal(asked: Asked, change: impl Fn(&mut Run, Record)) -> u64 {
    playing(asked, |run| {
        let call = about_to(run, 54);
        let done = run.round();
        if let (Some(call), Err(End::FrameRoom | End::RegisterRoom)) = (call, done) {
            change(run, call);
        }
        done
    })
}

/// Where the running frame's registers stand.
fn own_registers(run: &Run) -> (usize, usize) {
    let first = run.running().first as usize;
    (first, first + usize::from(run.running_function().regs))
}

#[test]
fn registers_that_are_not_cleared_are_found() {
    differs(|asked| {
        playing(asked, |run| {
            let before = about_to(run, 54).map(|call| (call, run.registers.to_vec()));
            run.round()?;
            if let Some((call, before)) = before {
                let (first, end) = own_registers(run);
                let first = first + call.w as usize;
                run.registers[first..end].copy_from_slice(&before[first..end]);
            }
            Ok(())
        })
    });
}

#[test]
fn arguments_that_are_not_copied_are_found() {
    differs(|asked| {
        after_a_call(asked, |run, _| {
            let (first, end) = own_registers(run);
            run.registers[first..end].fill(0);
        })
    });
}

#[test]
fn a_wrong_record_is_found() {
    // The caller's place stays where it was.
    differs(|asked| {
        after_a_call(asked, |run, _| {
            run.depth -= 1;
            run.set_place(run.running().place - 1);
            run.depth += 1;
        })
    });
    // Every dst is 0, as the entry's is.
    differs(|asked| {
        after_a_call(asked, |run, _| {
            run.frames[RECORD * (run.depth - 1) + 2] = 0;
        })
    });
}

#[test]
fn a_write_past_the_record_is_found() {
    differs(|asked| {
        after_a_call(asked, |run, _| {
            if let Some(word) = run.frames.get_mut(RECORD * run.depth) {
                *word = 0;
            }
        })
    });
}

#[test]
fn a_register_too_many_that_is_cleared_is_found() {
    differs(|asked| {
        after_a_call(asked, |run, _| {
            let (_, end) = own_registers(run);
            if let Some(word) = run.registers.get_mut(end) {
                *word = 0;
            }
        })
    });
}

#[test]
fn a_dropped_frame_that_changes_is_found() {
    differs(|asked| {
        after_a_ret(asked, |run, dropped| {
            run.frames[RECORD * dropped + 1] += 1;
        })
    });
    differs(|asked| {
        after_a_ret(asked, |run, dropped| {
            run.frames[RECORD * dropped..][..RECORD].fill(0);
        })
    });
    differs(|asked| {
        after_a_ret(asked, |run, _| {
            let (_, end) = own_registers(run);
            if let Some(word) = run.registers.get_mut(end) {
                *word = 0;
            }
        })
    });
}

#[test]
fn a_refused_call_that_writes_is_found() {
    differs(|asked| {
        at_a_refusal(asked, |run, _| {
            run.set_place(run.running().place + 1);
        })
    });
    // The record, though the registers have no room.
    differs(|asked| {
        at_a_refusal(asked, |run, call| {
            let record = run.frames.get_mut(RECORD * run.depth..);
            if let Some([function, place, ..]) = record {
                (*function, *place) = (call.b.into(), 0);
            }
        })
    });
    // The registers, though there is no record.
    differs(|asked| {
        at_a_refusal(asked, |run, _| {
            let (_, end) = own_registers(run);
            if let Some(word) = run.registers.get_mut(end) {
                *word = 0;
            }
        })
    });
}

#[test]
fn a_refused_entry_that_writes_is_found() {
    differs(|asked| {
        if let (Some(word), 0) = (asked.frames.first_mut(), asked.registers.len()) {
            *word = 0;
        }
        right(asked)
    });
    differs(|asked| {
        if let (Some(word), 0..=3) = (asked.registers.first_mut(), asked.frames.len()) {
            *word = 0;
        }
        right(asked)
    });
}

#[test]
fn a_faulty_image_that_writes_is_found() {
    differs(|asked| {
        if let (Err(_), Some(word)) = (image::check(asked.image), asked.frames.first_mut()) {
            *word = 0;
        }
        right(asked)
    });
}

#[test]
fn an_entry_that_is_missing_and_looks_for_room_is_found() {
    differs(|asked| {
        let room = asked.frames.len() >= RECORD;
        answering(asked, |answer| {
            let status = 1 + u64::from(CoreTrap::InvalidFunction.code());
            if !room && answer.words[..4] == [status, 0, 0, 0] {
                *answer = Answer::new(6, &[0]);
            }
        })
    });
}

/// Lends the reading another number of words than were lent, and gives back
/// what fits.
fn with_frames(asked: Asked, length: usize) -> u64 {
    let mut frames = asked.frames.to_vec();
    frames.resize(length, 0);
    let answered = right(Asked {
        frames: &mut frames,
        image: asked.image,
        limits: asked.limits,
        registers: asked.registers,
        answer: asked.answer,
    });
    let both = length.min(asked.frames.len());
    asked.frames[..both].copy_from_slice(&frames[..both]);
    answered
}

#[test]
fn frames_taken_for_more_or_less_are_found() {
    // Words left over are a record.
    differs(|asked| {
        let length = asked.frames.len().next_multiple_of(RECORD);
        with_frames(asked, length)
    });
    // The last record is not used.
    differs(|asked| {
        let length = asked.frames.len().saturating_sub(RECORD);
        with_frames(asked, length)
    });
}

#[test]
fn a_register_that_is_not_used_is_found() {
    differs(|asked| {
        let length = asked.registers.len().saturating_sub(1);
        right(Asked {
            registers: &mut asked.registers[..length],
            image: asked.image,
            limits: asked.limits,
            frames: asked.frames,
            answer: asked.answer,
        })
    });
}

/// Where both are short, the frame is what is missing.
#[test]
fn registers_looked_at_before_frames_are_found() {
    differs(|asked| {
        let (frames, registers) = (asked.frames.to_vec(), asked.registers.to_vec());
        let length = asked.frames.len() + RECORD;
        let mut more = frames.clone();
        more.resize(length, 0);
        let mut copy = registers;
        let other = reading::answer(asked.image, asked.limits, &mut more, &mut copy);
        answering(asked, |answer| {
            if (answer.number, other.number) == (6, 7) && answer.words == other.words {
                *answer = other;
            }
        })
    });
}
