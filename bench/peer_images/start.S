! Start-up of the images that bench/peers plays. Simulators begin in different states (SIS with traps enabled), so PSR and WIM
! are set here. Traps stay disabled: the images need none, so that each ends by the `ta 0` below, and any other trap is seen.
        .section .text.start, "ax"
        .global _start
_start:
        wr      %g0, 0x80, %psr         ! supervisor, traps disabled, window 0
        nop; nop; nop
        wr      %g0, 2, %wim            ! window 1 is invalid
        nop; nop; nop
        set     stack_top - 96, %sp
        mov     0, %fp
        call    main
        nop
        ta      0
        nop

! putchar(c): the low byte of c goes to the core's output.
        .global putchar
putchar:
        set     0x80000100, %o1
        retl
        st      %o0, [%o1]

        .section .bss
        .align  8
        .skip   1 << 14
stack_top:
