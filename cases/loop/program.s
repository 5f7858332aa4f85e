        add     %g0, 3, %g1                     ! 82002003
        deccc   %g1                             ! 82A06001
        bne     . - 4                           ! 12BFFFFF
        add     %g2, 2, %g2                     ! 8400A002
        ta      0                               ! 91D02000
