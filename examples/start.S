! Start-up of a program for the simulated machine: trap table, stack, window handlers, one character of output.
!
! All cores begin at _start with their number in %o0, traps disabled, window 0 and window 1 invalid (WIM = 2). PSR, WIM
! and TBR are written at once on this machine; the three instructions that SPARC V8 asks for behind such a write are
! there all the same.

#define WINDOWS 8
#define FRAME 96                        /* save area of a window, and the outgoing arguments */
#define STACK_BITS 14                   /* 16 KiB of stack for each core */
#define OUTPUT_WORD 0x80000100
#define ENABLE_TRAPS 0x20

#define SETTLE nop; nop; nop

        .section .text.start, "ax"
        .global _start
_start:
        set     trap_table, %g1
        wr      %g1, 0, %tbr
        sll     %o0, STACK_BITS, %g1
        set     stack_top - FRAME, %sp
        sub     %sp, %g1, %sp
        mov     0, %fp
        rd      %psr, %g1
        wr      %g1, ENABLE_TRAPS, %psr
        SETTLE
        call    main                    ! main(core)
        nop

! Ends the core: with traps disabled a software trap is error mode, which the report tells as `halt 80`.
        rd      %psr, %g1
        wr      %g1, ENABLE_TRAPS, %psr
        SETTLE
        ta      0
        nop

! putchar(c): the low byte of c goes to the core's output.
        .global putchar
putchar:
        set     OUTPUT_WORD, %o1
        retl
        st      %o0, [%o1]

! SAVE found its window invalid. The trap's window is that window: the next one is spilled to its stack, and becomes
! the invalid one.
window_overflow:
        mov     %g1, %l7
        rd      %wim, %l3
        srl     %l3, 1, %g1
        sll     %l3, WINDOWS - 1, %l4
        or      %l4, %g1, %g1
        save                            ! into the window to be spilled
        wr      %g1, 0, %wim
        SETTLE
        std     %l0, [%sp + 0]
        std     %l2, [%sp + 8]
        std     %l4, [%sp + 16]
        std     %l6, [%sp + 24]
        std     %i0, [%sp + 32]
        std     %i2, [%sp + 40]
        std     %i4, [%sp + 48]
        std     %i6, [%sp + 56]
        restore                         ! back into the trap's window
        mov     %l7, %g1
        jmp     %l1
        rett    %l2

! RESTORE found its window invalid: that window is filled from its stack, and the one above it becomes invalid.
window_underflow:
        rd      %wim, %l3
        sll     %l3, 1, %l4
        srl     %l3, WINDOWS - 1, %l5
        or      %l5, %l4, %l5
        wr      %l5, 0, %wim
        SETTLE
        restore                         ! the window of the RESTORE that trapped
        restore                         ! the window to be filled
        ldd     [%sp + 0], %l0
        ldd     [%sp + 8], %l2
        ldd     [%sp + 16], %l4
        ldd     [%sp + 24], %l6
        ldd     [%sp + 32], %i0
        ldd     [%sp + 40], %i2
        ldd     [%sp + 48], %i4
        ldd     [%sp + 56], %i6
        save
        save                            ! back into the trap's window
        jmp     %l1
        rett    %l2

! The trap table: four words for each of 256 trap types. Any trap but the two of the windows ends the core as
! `halt 81`; the trap type stands in TBR then.
        .macro  unexpected count
        .rept   \count
        ta      1
        nop
        nop
        nop
        .endr
        .endm

        .section .text.table, "ax"
        .align  4096
trap_table:
        unexpected 5
        ba      window_overflow         ! 05
        nop
        nop
        nop
        ba      window_underflow        ! 06
        nop
        nop
        nop
        unexpected 249

        .section .bss
        .align  8
        .skip   8 << STACK_BITS
stack_top:
