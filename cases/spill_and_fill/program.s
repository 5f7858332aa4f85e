        ba,a    . + 168                         ! 3080002A
        unimp   0                               ! 00000000
        unimp   0                               ! 00000000
        unimp   0                               ! 00000000
        unimp   0                               ! 00000000
        unimp   0                               ! 00000000
        unimp   0                               ! 00000000
        unimp   0                               ! 00000000
        unimp   0                               ! 00000000
        unimp   0                               ! 00000000
        unimp   0                               ! 00000000
        unimp   0                               ! 00000000
        unimp   0                               ! 00000000
        unimp   0                               ! 00000000
        unimp   0                               ! 00000000
        unimp   0                               ! 00000000
        unimp   0                               ! 00000000
        unimp   0                               ! 00000000
        unimp   0                               ! 00000000
        unimp   0                               ! 00000000
        ba      . + 24                          ! 10800006
        nop                                     ! 01000000
        unimp   0                               ! 00000000
        unimp   0                               ! 00000000
        ba      . + 36                          ! 10800009
        nop                                     ! 01000000
        save                                    ! 81E00000
        wr      1, %wim                         ! 81902001
        std     %l0, [ %sp ]                    ! E03B8000
        std     %fp, [ %sp + 8 ]                ! FC3BA008
        restore                                 ! 81E80000
        jmp     %l1                             ! 81C44000
        rett    %l2                             ! 81CC8000
        wr      2, %wim                         ! 81902002
        restore                                 ! 81E80000
        restore                                 ! 81E80000
        ldd     [ %sp ], %l0                    ! E01B8000
        ldd     [ %sp + 8 ], %fp                ! FC1BA008
        save                                    ! 81E00000
        save                                    ! 81E00000
        jmp     %l1                             ! 81C44000
        rett    %l2                             ! 81CC8000
        sethi   %hi(0x40000000), %g1            ! 03100000
        wr      %g1, 0, %tbr                    ! 81986000
        wr      0xa0, %psr                      ! 818820A0
        sethi   %hi(0x40001000), %sp            ! 1D100004
        mov     0x55, %l0                       ! A0102055
        mov     7, %g2                          ! 84102007
        save    %sp, -16, %sp                   ! 9DE3BFF0
        deccc   %g2                             ! 84A0A001
        bne     . - 8                           ! 12BFFFFE
        mov     %g2, %l0                        ! A0100002
        mov     7, %g2                          ! 84102007
        restore                                 ! 81E80000
        deccc   %g2                             ! 84A0A001
        bne     . - 8                           ! 12BFFFFE
        add     %g3, %l0, %g3                   ! 8600C010
        wr      0x80, %psr                      ! 81882080
        nop                                     ! 01000000
        ta      0                               ! 91D02000
