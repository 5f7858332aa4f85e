        sethi   %hi(0xfffffc00), %g0            ! 013FFFFF
        add     %g0, 1, %g1                     ! 82002001
        ta      0                               ! 91D02000
