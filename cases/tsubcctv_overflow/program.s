        sethi   %hi(0x80000000), %g1            ! 03200000
        tsubcctv %g1, 4, %g2                    ! 85186004
        ta      0                               ! 91D02000
