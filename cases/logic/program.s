        sethi   %hi(0xff00fc00), %g1            ! 033FC03F
        andn    %g1, 0xff, %g2                  ! 842860FF
        orncc   %g1, %g2, %g3                   ! 86B04002
        xnorcc  %g1, 0x55, %g4                  ! 88B86055
        xorcc   %g1, %g1, %g5                   ! 8A984001
        ta      0                               ! 91D02000
