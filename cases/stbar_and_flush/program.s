        stbar                                   ! 8143C000
        flush   %g0 + 0                         ! 81D82000
        add     %g0, 1, %g1                     ! 82002001
        ta      0                               ! 91D02000
