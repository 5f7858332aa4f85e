        wr      %g0, 0, %wim                    ! 81902000
        wr      0xc6, %psr                      ! 818820C6
        sethi   %hi(0x40000000), %g1            ! 03100000
        or      %g1, 0x1c, %g1                  ! 8210601C
        jmp     %g1                             ! 81C04000
        rett    %g1 + 4                         ! 81C86004
        ta      0                               ! 91D02000
        nop                                     ! 01000000
        rd      %psr, %g2                       ! 85480000
        wr      0x80, %psr                      ! 81882080
        ta      0                               ! 91D02000
