        sethi   %hi(0x40001000), %g1            ! 03100004
        sethi   %hi(0x81f27000), %g2            ! 05207C9C
        or      %g2, 0x384, %g2                 ! 8410A384
        st      %g2, [ %g1 ]                    ! C4204000
        sethi   %hi(0xa5e69400), %g3            ! 072979A5
        or      %g3, 0x308, %g3                 ! 8610E308
        st      %g3, [ %g1 + 4 ]                ! C6206004
        lda     [ %g1 ] (1), %o0                ! D0804020
        lduba   [ %g1 ] (8), %o1                ! D2884100
        ldsha   [ %g1 ] (9), %o2                ! D4D04120
        stba    %g2, [ %g1 ] (10)               ! C4A84140
        ldda    [ %g1 ] (11), %o4               ! D8984160
        ldstuba [ %g1 ] (8), %g4                ! C8E84100
        swapa   [ %g1 ] (9), %g5                ! CAF84120
        ta      0                               ! 91D02000
