        .word   0x81b82000                      ! 81B82000  cpop2
        ta      0                               ! 91D02000
