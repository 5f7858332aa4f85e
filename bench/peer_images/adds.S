! A loop of adds, 100,000 turns of 33 instructions.
        .section .text, "ax"
        .global main
main:
        set     100000, %g1
turn:
        .rept   5
        add     %o1, %o2, %o0
        add     %o2, %o3, %o1
        add     %o3, %o4, %o2
        add     %o4, %o5, %o3
        add     %o5, %o0, %o4
        add     %o0, %o1, %o5
        .endr
        subcc   %g1, 1, %g1
        bne     turn
        nop
        retl
        nop
