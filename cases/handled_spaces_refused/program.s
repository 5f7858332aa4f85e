        ba,a    . + 156                         ! 30800027
        unimp   0                               ! 00000000
        unimp   0                               ! 00000000
        unimp   0                               ! 00000000
        unimp   0                               ! 00000000
        unimp   0                               ! 00000000
        unimp   0                               ! 00000000
        unimp   0                               ! 00000000
        inc     %g5                             ! 8A016001
        jmp     %l2                             ! 81C48000
        rett    %l2 + 4                         ! 81CCA004
        unimp   0                               ! 00000000
        inc     %g4                             ! 88012001
        jmp     %l2                             ! 81C48000
        rett    %l2 + 4                         ! 81CCA004
        unimp   0                               ! 00000000
        unimp   0                               ! 00000000
        unimp   0                               ! 00000000
        unimp   0                               ! 00000000
        unimp   0                               ! 00000000
        unimp   0                               ! 00000000
        unimp   0                               ! 00000000
        unimp   0                               ! 00000000
        unimp   0                               ! 00000000
        unimp   0                               ! 00000000
        unimp   0                               ! 00000000
        unimp   0                               ! 00000000
        unimp   0                               ! 00000000
        inc     %g7                             ! 8E01E001
        jmp     %l2                             ! 81C48000
        rett    %l2 + 4                         ! 81CCA004
        unimp   0                               ! 00000000
        unimp   0                               ! 00000000
        unimp   0                               ! 00000000
        unimp   0                               ! 00000000
        unimp   0                               ! 00000000
        inc     %g6                             ! 8C01A001
        jmp     %l2                             ! 81C48000
        rett    %l2 + 4                         ! 81CCA004
        sethi   %hi(0x40000000), %g1            ! 03100000
        wr      %g1, 0, %tbr                    ! 81986000
        wr      0xa0, %psr                      ! 818820A0
        nop                                     ! 01000000
        lduba   [ %g1 ] (2), %o0                ! D0884040
        ldda    [ %g1 ] (2), %o0                ! D0984040
        stha    %g1, [ %g1 ] (2)                ! C2B04040
        ldstuba [ %g1 ] (2), %o0                ! D0E84040
        swapa   [ %g1 ] (2), %o0                ! D0F84040
        lda     [ %g1 ] (0), %o0                ! D0804000
        sta     %g1, [ %g1 ] 12                 ! C2A04180
        ldda    [ %g1 ] (3), %o0                ! D0984060
        ldstuba [ %g1 ] (255), %o0              ! D0E85FE0
        or      %g1, 2, %g1                     ! 82106002
        lda     [ %g1 ] (2), %o0                ! D0804040
        sta     %g1, [ %g1 ] 12                 ! C2A04180
        ldda    [ %g1 ] (11), %o1               ! D2984160
        wr      0x80, %psr                      ! 81882080
        nop                                     ! 01000000
        ta      0                               ! 91D02000
