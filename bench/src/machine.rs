//! Loops in machine code that do nothing but copy memory.

use std::collections::HashSet;

/// Moves that change nothing on the way.
const MOVES: [&str; 7] = [
    "mov", "movl", "movq", "movups", "movaps", "movdqu", "movdqa",
];

/// The addresses of the instructions of all loops that only copy.
#[derive(Debug, Default, PartialEq, Eq)]
pub struct CopyLoops {
    /// The loops themselves.
    pub bodies: HashSet<u64>,
    /// What stands directly before a loop and leads into it.
    pub leads: HashSet<u64>,
}

/// An instruction as `objdump` prints it.
pub struct Instruction<'a> {
    address: u64,
    name: &'a str,
    operands: &'a str,
}

fn in_memory(operand: &str) -> bool {
    operand.contains('(')
}

/// A register's name without its width: r8 for r8d, ax for eax and rax.
fn register(operand: &str) -> &str {
    let name = operand.trim_start_matches('%');
    match name.contains(|c: char| c.is_ascii_digit()) {
        true => name.trim_end_matches(['d', 'w', 'b']),
        false => name.trim_start_matches(['r', 'e']),
    }
}

impl<'a> Instruction<'a> {
    /// Reads a line of the disassembly.
    pub fn read(line: &'a str) -> Option<Instruction<'a>> {
        let (address, text) = line.trim_start().split_once(":\t")?;
        let text = text.split('#').next()?.trim_end();
        let (name, operands) = text.split_once(' ').unwrap_or((text, ""));
        Some(Instruction {
            address: u64::from_str_radix(address, 16).ok()?,
            name,
            operands: operands.trim_start(),
        })
    }

    /// Where a jump goes.
    fn goal(&self) -> Option<u64> {
        let place = self.operands.split(' ').next()?;
        let goal = u64::from_str_radix(place, 16).ok()?;
        self.name.starts_with('j').then_some(goal)
    }

    /// The source and the target of a move.
    fn moved(&self) -> Option<(&'a str, &'a str)> {
        let parts = match self.operands.find("),") {
            Some(end) => (&self.operands[..=end], &self.operands[end + 2..]),
            None => self.operands.split_once(',')?,
        };
        MOVES.contains(&self.name).then_some(parts)
    }

    /// The registers that are named.
    fn registers(&self) -> impl Iterator<Item = &'a str> {
        let parts = self
            .operands
            .split(|c: char| !c.is_ascii_alphanumeric() && c != '%');
        parts.filter(|part| part.starts_with('%')).map(register)
    }
}

/// Whether the instructions from the first to the jump back to it only copy:
/// what is written to memory was read from memory and is used for nothing else.
/// Counting and leaving the loop are allowed.
fn copies(body: &[Instruction]) -> bool {
    let mut read: HashSet<&str> = HashSet::new();
    let mut written = 0;
    for instruction in body {
        match instruction.moved() {
            Some((source, target)) if in_memory(source) => {
                read.insert(register(target));
            }
            Some((source, target)) if in_memory(target) && read.contains(register(source)) => {
                written += 1;
            }
            _ if in_memory(instruction.operands) => return false,
            _ if instruction.registers().any(|name| read.contains(name)) => return false,
            _ => {}
        }
    }
    written > 0
}

/// Whether the jump ends a loop without a call and without a loop in it.
fn simple(body: &[Instruction]) -> bool {
    let Some((end, rest)) = body.split_last() else {
        return false;
    };
    let inside = body[0].address..=end.address;
    let stays = |goal: u64| inside.contains(&goal);
    !rest
        .iter()
        .any(|one| one.name == "call" || one.goal().is_some_and(stays))
}

/// The instructions that are always executed on the way from the first of them
/// into a loop that begins at a place: no jump, call or return is among them,
/// and none jumps to any but the first.
fn lead<'a>(before: &'a [Instruction<'a>], goals: &HashSet<u64>) -> &'a [Instruction<'a>] {
    let leaves = |one: &Instruction| {
        let names = ["j", "call", "ret"];
        names.iter().any(|name| one.name.starts_with(name))
    };
    let after_jump = before.iter().rposition(leaves).map_or(0, |place| place + 1);
    let met = |one: &Instruction| goals.contains(&one.address);
    let at_goal = before.iter().rposition(met).unwrap_or(0);
    &before[after_jump.max(at_goal)..]
}

/// The loops of a program that only copy.
pub fn copy_loops(instructions: &[Instruction]) -> CopyLoops {
    let goals: HashSet<u64> = instructions.iter().filter_map(Instruction::goal).collect();
    let addresses = |part: &[Instruction]| part.iter().map(|one| one.address).collect::<Vec<_>>();
    let mut loops = CopyLoops::default();
    for (end, jump) in instructions.iter().enumerate() {
        let Some(goal) = jump.goal().filter(|&goal| goal < jump.address) else {
            continue;
        };
        let begin = instructions.partition_point(|one| one.address < goal);
        let body = &instructions[begin..=end];
        if simple(body) && copies(body) {
            loops.bodies.extend(addresses(body));
            loops
                .leads
                .extend(addresses(lead(&instructions[..begin], &goals)));
        }
    }
    loops
}
