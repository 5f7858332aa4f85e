        wr      0xe8, %psr                      ! 818820E8
        ta      0                               ! 91D02000
