//! What a host asks of a table that it keeps as bytes. A call comes as a number and three arguments; its answer goes
//! with the slot of a child that was born, and with how a process ended that was removed.

use crate::calls::{Answer, Call, NO_CALL, UNSOUND};
use crate::mirror::{bytes, state_bytes, table, Bytes};
use crate::sound;
use crate::table::{State, Table, NAMESPACES, NONE, PROCESSES};

/// What a call does not take may be anything.
#[derive(Clone, Copy, PartialEq, Eq, Debug)]
pub struct Request {
    pub call: u32,
    pub a: i32,
    pub b: i32,
    pub c: i32,
}

#[derive(Clone, Copy, PartialEq, Eq, Debug)]
pub struct Reply {
    pub answer: i32,
    /// the slot of a child that was born, or `NONE`
    pub child: u8,
    /// as in the record of the process that a wait removed, or 0
    pub state: u8,
    pub end: u8,
}

impl Request {
    /// The request of a call, with 0 for what it does not take.
    pub fn of(call: Call) -> Request {
        let (call, a, b) = match call {
            Call::Clone => (1, 0, 0),
            Call::CloneNew => (2, 0, 0),
            Call::Unshare => (3, 0, 0),
            Call::Setns(n) => (4, n, 0),
            Call::Kill(n, s) => (5, n, s),
            Call::Exit(s) => (6, s, 0),
            Call::Wait => (7, 0, 0),
            Call::Getpid => (8, 0, 0),
            Call::Getppid => (9, 0, 0),
            Call::Handle(s, true) => (10, s, 0),
            Call::Handle(s, false) => (11, s, 0),
            Call::Poll => (12, 0, 0),
        };
        Request { call, a, b, c: 0 }
    }

    /// The call of the number, if one has it.
    pub fn call(&self) -> Option<Call> {
        match self.call {
            1 => Some(Call::Clone),
            2 => Some(Call::CloneNew),
            3 => Some(Call::Unshare),
            4 => Some(Call::Setns(self.a)),
            5 => Some(Call::Kill(self.a, self.b)),
            6 => Some(Call::Exit(self.a)),
            7 => Some(Call::Wait),
            8 => Some(Call::Getpid),
            9 => Some(Call::Getppid),
            10 => Some(Call::Handle(self.a, true)),
            11 => Some(Call::Handle(self.a, false)),
            12 => Some(Call::Poll),
            _ => None,
        }
    }
}

impl Reply {
    fn refused(answer: i32) -> Reply {
        Reply { answer, child: NONE, state: 0, end: 0 }
    }
}

/// One call by the process at a slot.
pub fn turn(memory: &mut Bytes, caller: u32, request: Request) -> Reply {
    let Some(call) = request.call() else { return Reply::refused(NO_CALL) };
    let Some(before) = table(memory) else { return Reply::refused(UNSOUND) };
    // No table has a slot beyond 255, nor at 255.
    let caller = u8::try_from(caller).unwrap_or(NONE);
    let mut after = before.clone();
    let answer = after.step(caller, call);
    // After a refusal too, so that one which changes the table is seen to.
    *memory = bytes(&after);
    match answer {
        Err(refusal) => Reply::refused(refusal),
        Ok(answer) => reply(answer, born(&before, &after)),
    }
}

fn reply(answer: Answer, child: u8) -> Reply {
    let (number, [state, end]) = match answer {
        Answer::Number(number) => (number, [0, 0]),
        Answer::Reaped(number, how) => (number, state_bytes(State::Ended(how))),
    };
    Reply { answer: number.into(), child, state, end }
}

/// The slot where there is somebody now and was nobody before.
fn born(before: &Table, after: &Table) -> u8 {
    let came = |&i: &u8| before.process(i).is_none() && after.process(i).is_some();
    (0..PROCESSES as u8).find(came).unwrap_or(NONE)
}

/// Whether the bytes are a sound table.
pub fn is_sound(memory: &Bytes) -> bool {
    table(memory).is_some_and(|t| sound::is_sound(&t))
}

/// The number that the namespace at a slot gives next, or 0 where there is no such slot. Bytes that are no table are
/// taken for the empty one.
pub fn next_pid(memory: &Bytes, slot: u32) -> u16 {
    match u8::try_from(slot) {
        Ok(n) if n < NAMESPACES as u8 => table(memory).unwrap_or(Table::EMPTY).next_number(n),
        _ => 0,
    }
}

#[cfg(test)]
mod tests {
    use super::*;

    fn ask(memory: &mut Bytes, caller: u32, call: u32, a: i32, b: i32) -> [i32; 4] {
        let Reply { answer, child, state, end } = turn(memory, caller, Request { call, a, b, c: -1 });
        [answer, child.into(), state.into(), end.into()]
    }

    #[test]
    fn each_number_has_its_call() {
        for call in 0..300 {
            let asked = Request { call, a: 3, b: 4, c: 5 };
            let known = asked.call().map(|c| Request::of(c).call);
            assert_eq!(known, (1..=12).contains(&call).then_some(call));
        }
    }

    /// Document 01's first lines, and an end by a number.
    #[test]
    fn replies() {
        let mut memory = bytes(&Table::fresh());
        assert_eq!(ask(&mut memory, 0, 2, 7, 7), [2, 1, 0, 0]);
        assert_eq!(ask(&mut memory, 1, 1, 7, 7), [2, 2, 0, 0]);
        assert_eq!(ask(&mut memory, 2, 6, -1, 7), [0, 255, 0, 0]);
        assert_eq!(ask(&mut memory, 1, 7, 7, 7), [2, 255, 2, 255]);
        assert_eq!(ask(&mut memory, 0, 5, 2, 9), [0, 255, 0, 0]);
        assert_eq!(ask(&mut memory, 0, 7, 7, 7), [2, 255, 3, 9]);
    }

    /// In their order: no such call, no sound table, no such caller. All leave every byte.
    #[test]
    fn refusals() {
        let fresh = bytes(&Table::fresh());
        let mut damaged = fresh;
        damaged[5405] = 1;
        for (before, caller, call, answer) in [
            (damaged, 256, 0, -1002),
            (damaged, 0, 13, -1002),
            (damaged, 256, 8, -1000),
            (fresh, 256, 8, -1001),
            (fresh, 64, 8, -1001),
            (fresh, 0, 8 + 256, -1002),
            (fresh, 0, 6, -16),
        ] {
            let mut memory = before;
            assert_eq!(ask(&mut memory, caller, call, 7, 7), [answer, 255, 0, 0]);
            assert_eq!(memory, before);
        }
    }

    #[test]
    fn the_next_number() {
        let mut memory = bytes(&Table::fresh());
        assert_eq!([0, 1, 47, 48, 256, u32::MAX].map(|n| next_pid(&memory, n)), [2, 1, 1, 0, 0, 0]);
        for (last, next) in [(32_766, 32_767), (32_767, 300), (32_768, 300), (65_535, 300)] {
            memory[5124..5126].copy_from_slice(&u16::to_le_bytes(last));
            assert_eq!(next_pid(&memory, 0), next);
        }
        memory[5] = 1;
        assert_eq!(next_pid(&memory, 0), 1);
    }
}
