        ba,a    . + 156                         ! 30800027
        unimp   0                               ! 00000000
        unimp   0                               ! 00000000
        unimp   0                               ! 00000000
        unimp   0                               ! 00000000
        unimp   0                               ! 00000000
        unimp   0                               ! 00000000
        unimp   0                               ! 00000000
        inc     %g5                             ! 8A016001
        jmp     %l2                             ! 81C48000
        rett    %l2 + 4                         ! 81CCA004
        unimp   0                               ! 00000000
        inc     %g4                             ! 88012001
        jmp     %l2                             ! 81C48000
        rett    %l2 + 4                         ! 81CCA004
        unimp   0                               ! 00000000
        unimp   0                               ! 00000000
        unimp   0                               ! 00000000
        unimp   0                               ! 00000000
        unimp   0                               ! 00000000
        unimp   0                               ! 00000000
        unimp   0                               ! 00000000
        unimp   0                               ! 00000000
        unimp   0                               ! 00000000
        unimp   0                               ! 00000000
        unimp   0                               ! 00000000
        unimp   0                               ! 00000000
        unimp   0                               ! 00000000
        inc     %g7                             ! 8E01E001
        jmp     %l2                             ! 81C48000
        rett    %l2 + 4                         ! 81CCA004
        unimp   0                               ! 00000000
        unimp   0                               ! 00000000
        unimp   0                               ! 00000000
        unimp   0                               ! 00000000
        unimp   0                               ! 00000000
        inc     %g6                             ! 8C01A001
        jmp     %l2                             ! 81C48000
        rett    %l2 + 4                         ! 81CCA004
        sethi   %hi(0x40000000), %g1            ! 03100000
        wr      %g1, 0, %tbr                    ! 81986000
        wr      0xa0, %psr                      ! 818820A0
        nop                                     ! 01000000
        rett    %g0                             ! 81C80000
        wr      0x80, %psr                      ! 81882080
        nop                                     ! 01000000
        ta      0                               ! 91D02000
