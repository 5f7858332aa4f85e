        wr      -1, %y                          ! 81803FFF
        sethi   %hi(0x80000000), %g1            ! 03200000
        sdivcc  %g1, -1, %o0                    ! 90F87FFF
        ta      0                               ! 91D02000
