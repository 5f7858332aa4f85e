        add     %g0, 0xf0, %g1                  ! 820020F0
        wr      %g1, 0xff, %y                   ! 818060FF
        .word   0x85402000                      ! 85402000  rd %y, %g2
        ta      0                               ! 91D02000
