        sethi   %hi(0x40001000), %g1            ! 03100004
        add     %g1, %g1, %g3                   ! 86004001
        add     %g0, %g2, %g0                   ! 80000002
        sethi   %hi(0xfffffc00), %g3            ! 073FFFFF
        sethi   %hi(0x40001000), %g1            ! 03100004
        mov     0, %g2                          ! 84102000
        call    . + 8                           ! 40000002
        mov     0, %g2                          ! 84102000
        ldd     [ %g1 + %g2 ], %g4              ! C8184002
        swap    [ %g1 + %g2 ], %g3              ! C6784002
        save    %g1, %g2, %o0                   ! 91E04002
        ld      [ %g1 + 1 ], %g5                ! CA006001
