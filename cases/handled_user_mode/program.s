        ba,a    . + 156                         ! 30800027
        unimp   0                               ! 00000000
        unimp   0                               ! 00000000
        unimp   0                               ! 00000000
        unimp   0                               ! 00000000
        unimp   0                               ! 00000000
        unimp   0                               ! 00000000
        unimp   0                               ! 00000000
        inc     %g5                             ! 8A016001
        jmp     %l2                             ! 81C48000
        rett    %l2 + 4                         ! 81CCA004
        unimp   0                               ! 00000000
        inc     %g4                             ! 88012001
        jmp     %l2                             ! 81C48000
        rett    %l2 + 4                         ! 81CCA004
        unimp   0                               ! 00000000
        unimp   0                               ! 00000000
        unimp   0                               ! 00000000
        unimp   0                               ! 00000000
        unimp   0                               ! 00000000
        unimp   0                               ! 00000000
        unimp   0                               ! 00000000
        unimp   0                               ! 00000000
        unimp   0                               ! 00000000
        unimp   0                               ! 00000000
        unimp   0                               ! 00000000
        unimp   0                               ! 00000000
        unimp   0                               ! 00000000
        inc     %g7                             ! 8E01E001
        jmp     %l2                             ! 81C48000
        rett    %l2 + 4                         ! 81CCA004
        unimp   0                               ! 00000000
        unimp   0                               ! 00000000
        unimp   0                               ! 00000000
        unimp   0                               ! 00000000
        unimp   0                               ! 00000000
        inc     %g6                             ! 8C01A001
        jmp     %l2                             ! 81C48000
        rett    %l2 + 4                         ! 81CCA004
        sethi   %hi(0x40000000), %g1            ! 03100000
        wr      %g1, 0, %tbr                    ! 81986000
        wr      0xa0, %psr                      ! 818820A0
        nop                                     ! 01000000
        wr      %g0, 0, %wim                    ! 81902000
        wr      0x80, %psr                      ! 81882080
        sethi   %hi(0x40000000), %g1            ! 03100000
        or      %g1, 0xc4, %g1                  ! 821060C4
        jmp     %g1                             ! 81C04000
        rett    %g1 + 4                         ! 81C86004
        nop                                     ! 01000000
        rd      %psr, %o0                       ! 91480000
        rd      %wim, %o0                       ! 91500000
        rd      %tbr, %o0                       ! 91580000
        wr      %g0, %psr                       ! 81880000
        wr      %g0, %wim                       ! 81900000
        wr      %g0, %tbr                       ! 81980000
        rett    %g0                             ! 81C80000
        lda     [ %g0 ] (11), %o0               ! D0800160
        .word   0xc0802000                      ! C0802000  lda with an immediate operand
        std     %fq, [ %g0 ]                    ! C1300000
        std     %cq, [ %g0 ]                    ! C1B00000
        mov     3, %o1                          ! 92102003
        unimp   0                               ! 00000000
        ta      0                               ! 91D02000
