        ba,a    . + 40                          ! 3080000A
        unimp   0                               ! 00000000
        unimp   0                               ! 00000000
        unimp   0                               ! 00000000
        unimp   0                               ! 00000000
        unimp   0                               ! 00000000
        unimp   0                               ! 00000000
        unimp   0                               ! 00000000
        wr      %g0, 0, %tbr                    ! 81982000
        ta      0                               ! 91D02000
        sethi   %hi(0x40000000), %g1            ! 03100000
        wr      %g1, 0, %tbr                    ! 81986000
        wr      0xe1, %psr                      ! 818820E1
        unimp   0                               ! 00000000
