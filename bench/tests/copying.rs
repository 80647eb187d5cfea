//! A test of what counts as a loop that only copies.

use bench::machine::{copy_loops, CopyLoops, Instruction};

/// The loops of a disassembly.
fn loops(text: &str) -> CopyLoops {
    let instructions: Vec<Instruction> = text.lines().filter_map(Instruction::read).collect();
    copy_loops(&instructions)
}

/// A copy of four numbers at a time, of one at a time what is left, and what
/// leads into both.
const COPY: &str = "
  10:\tcmp    $0x8,%r12
  14:\tjb     30 <f+0x30>
  16:\tlea    0x0(,%r12,4),%rcx
  1a:\txor    %edx,%edx
  1c:\tmovups (%rcx,%rdx,4),%xmm0
  20:\tmovups %xmm0,(%r14,%rdx,4)
  24:\tadd    $0x4,%rdx
  28:\tcmp    %rdx,%rbp
  2b:\tjne    1c <f+0x1c>
  2d:\tmov    %rbp,%rax
  30:\tdec    %r14
  32:\tmov    -0x4(%rcx,%rax,4),%r8d
  34:\tmov    %r8d,-0x4(%r14,%rax,4)
  38:\tcmp    %rax,%r12
  3b:\tje     44 <f+0x44>
  3d:\tinc    %rax
  40:\tjmp    32 <f+0x32>
  44:\tret";

#[test]
fn copies_are_found() {
    let found = loops(COPY);
    let bodies = [
        0x1c, 0x20, 0x24, 0x28, 0x2b, 0x32, 0x34, 0x38, 0x3b, 0x3d, 0x40,
    ];
    assert_eq!(found.bodies, bodies.into());
    assert_eq!(found.leads, [0x16, 0x1a, 0x30].into());
}

/// With one instruction after the load, the loop does more than copy.
fn with(more: &str) -> String {
    let load = "  1c:\tmovups (%rcx,%rdx,4),%xmm0\n";
    COPY.replace(load, &format!("{load}  1e:\t{more}\n"))
}

#[test]
fn other_loops_are_not() {
    let others = [
        "paddd  %xmm1,%xmm0",
        "pcmpeqd (%r14,%rdx,4),%xmm0",
        "movups %xmm1,0x10(%r14,%rdx,4)",
        "cmp    (%r14,%rdx,4),%esi",
        "call   f0 <memcpy>",
        "jne    24 <f+0x24>",
    ];
    for more in others {
        let found = loops(&with(more)).bodies;
        assert_eq!(found.len(), 6, "{more}");
        assert!(!found.contains(&0x1c), "{more}");
    }
}

/// Clearing stores what was not read; a scalar sum goes by another width's name.
#[test]
fn clearing_and_sums_are_not() {
    let load = "  32:\tmov    -0x4(%rcx,%rax,4),%r8d\n";
    let clearing = COPY.replace(load, "");
    assert_eq!(loops(&clearing).bodies.len(), 5);
    let sum = COPY.replace(load, &format!("{load}  33:\tadd    %r9,%r8\n"));
    assert_eq!(loops(&sum).bodies.len(), 5);
}
