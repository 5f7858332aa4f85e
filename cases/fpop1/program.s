        .word   0x81a02000                      ! 81A02000  fpop1
        ta      0                               ! 91D02000
