        add     %g0, -1, %g1                    ! 82003FFF
        umulcc  %g1, %g1, %g2                   ! 84D04001
        .word   0x87402000                      ! 87402000  rd %y, %g3
        ta      0                               ! 91D02000
