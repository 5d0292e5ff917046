//! What a text refers to: procedures by name, commands by number.

use crate::program::{pack, Command, Name, Procedure, Program};
use crate::Refusal;

/// Refusal 6. Calls then know the number of whom they call.
pub fn names(program: &mut Program, calls: &[(u16, Name)]) -> Result<(), Refusal> {
    let procedures = &program.procedures;
    let number_of = |name| procedures.iter().position(|p| p.name == name);
    for (at, procedure) in procedures.iter().enumerate() {
        if number_of(procedure.name) != Some(at) {
            return Err(Refusal::Names);
        }
    }
    program.main = number_of(pack(b"main")).ok_or(Refusal::Names)? as u8;
    for &(at, name) in calls {
        let found = number_of(name).ok_or(Refusal::Names)?;
        if let Command::Call { callee, .. } = &mut program.commands[at as usize] {
            *callee = found as u8;
        }
    }
    Ok(())
}

/// Refusal 7. Jumps then count from the first command of the whole text.
pub fn jumps(program: &mut Program) -> Result<(), Refusal> {
    for procedure in &program.procedures {
        let first = procedure.first as usize;
        for command in &mut program.commands[first..first + procedure.count as usize] {
            if let Command::Jump { to, .. } = command {
                if *to >= u32::from(procedure.count) {
                    return Err(Refusal::JumpRange);
                }
                *to += u32::from(procedure.first);
            }
        }
    }
    Ok(())
}

/// Refusal 8.
pub fn ends(program: &Program) -> Result<(), Refusal> {
    let ends = |p: &Procedure| {
        matches!(
            program.commands[usize::from(p.first + p.count) - 1],
            Command::Return(_) | Command::Fail(_) | Command::Vanish
        )
    };
    if program.procedures.iter().all(ends) {
        Ok(())
    } else {
        Err(Refusal::LastCommand)
    }
}
