        ba,a    . + 156                         ! 30800027
        unimp   0                               ! 00000000
        unimp   0                               ! 00000000
        unimp   0                               ! 00000000
        unimp   0                               ! 00000000
        unimp   0                               ! 00000000
        unimp   0                               ! 00000000
        unimp   0                               ! 00000000
        inc     %g5                             ! 8A016001
        jmp     %l2                             ! 81C48000
        rett    %l2 + 4                         ! 81CCA004
        unimp   0                               ! 00000000
        inc     %g4                             ! 88012001
        jmp     %l2                             ! 81C48000
        rett    %l2 + 4                         ! 81CCA004
        unimp   0                               ! 00000000
        unimp   0                               ! 00000000
        unimp   0                               ! 00000000
        unimp   0                               ! 00000000
        unimp   0                               ! 00000000
        unimp   0                               ! 00000000
        unimp   0                               ! 00000000
        unimp   0                               ! 00000000
        unimp   0                               ! 00000000
        unimp   0                               ! 00000000
        unimp   0                               ! 00000000
        unimp   0                               ! 00000000
        unimp   0                               ! 00000000
        inc     %g7                             ! 8E01E001
        jmp     %l2                             ! 81C48000
        rett    %l2 + 4                         ! 81CCA004
        unimp   0                               ! 00000000
        unimp   0                               ! 00000000
        unimp   0                               ! 00000000
        unimp   0                               ! 00000000
        unimp   0                               ! 00000000
        inc     %g6                             ! 8C01A001
        jmp     %l2                             ! 81C48000
        rett    %l2 + 4                         ! 81CCA004
        sethi   %hi(0x40000000), %g1            ! 03100000
        wr      %g1, 0, %tbr                    ! 81986000
        wr      0xa0, %psr                      ! 818820A0
        nop                                     ! 01000000
        sethi   %hi(0x80000000), %g2            ! 05200000
        ld      [ %g2 + 0x100 ], %o0            ! D000A100
        ldub    [ %g1 + -1 ], %o0               ! D0087FFF
        stb     %g1, [ %g2 + 0x103 ]            ! C228A103
        sth     %g1, [ %g2 + 0x100 ]            ! C230A100
        std     %g2, [ %g2 + 0x100 ]            ! C438A100
        stb     %g1, [ %g1 + 0xa0 ]             ! C22860A0
        std     %g2, [ %g1 ]                    ! C4384000
        sth     %g1, [ %g0 ]                    ! C2300000
        ld      [ %g1 ], %o1                    ! D2004000
        wr      0x80, %psr                      ! 81882080
        nop                                     ! 01000000
        ta      0                               ! 91D02000
