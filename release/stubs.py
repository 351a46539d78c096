"""Writes the stubs of libfastlanes.a in assembly: for each function of the header one that jumps to the code for this processor.

    python3 release/stubs.py NAME.. >stubs.s

A stub NAME jumps to where its slot says. At first that is code which asks fastlanes_level which of NAME_v2 and NAME_v3 this
processor runs, and writes that into the slot. Threads that do so at once write the same. Stub and slot have sections of their
own, so that of the functions that a program does not call a linker with --gc-sections keeps nothing.
"""

import sys

STUB = """
        .section .text.{name},"ax",@progbits
        .globl {name}
        .type {name},@function
        .hidden {name}_v2
        .hidden {name}_v3
        .p2align 4
{name}:
        jmp *.Lslot_{name}(%rip)
.Lfirst_{name}:
        leaq .Lslot_{name}(%rip), %r10
        leaq {name}_v2(%rip), %r11
        leaq {name}_v3(%rip), %rax
        jmp fastlanes_first_call
        .size {name}, .-{name}

        .section .data.rel.{name},"aw",@progbits
        .p2align 3
.Lslot_{name}:
        .quad .Lfirst_{name}
"""

# The six registers that parameters come in, and where the slot and the code for each level are, stay while C code runs. With the
# return address that is an even number of words, so the stack is aligned as C wants it. No function has a parameter that
# is no integer and no pointer.
KEPT = ["rdi", "rsi", "rdx", "rcx", "r8", "r9", "r10", "r11", "rax"]

FIRST_CALL = f"""
        .section .text.fastlanes_first_call,"ax",@progbits
        .globl fastlanes_first_call
        .hidden fastlanes_first_call
        .hidden fastlanes_level
        .type fastlanes_first_call,@function
        .p2align 4
fastlanes_first_call:
        .cfi_startproc
{"".join(f'''        pushq %{register}
        .cfi_adjust_cfa_offset 8
''' for register in KEPT)}        call fastlanes_level
        cmpl $3, %eax
{"".join(f'''        popq %{register}
        .cfi_adjust_cfa_offset -8
''' for register in reversed(KEPT))}        cmovneq %r11, %rax
        movq %rax, (%r10)
        jmp *%rax
        .cfi_endproc
        .size fastlanes_first_call, .-fastlanes_first_call

        .section .note.GNU-stack,"",@progbits
"""


def main(names):
    print("".join(STUB.format(name=name) for name in names).lstrip("\n"), end="")
    print(FIRST_CALL, end="")


if __name__ == "__main__":
    main(sys.argv[1:])
