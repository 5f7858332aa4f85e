        sethi   %hi(0xfffc00), %g1              ! 03003FFF
        or      %g1, 0x3c5, %g1                 ! 821063C5
        wr      %g1, 0, %psr                    ! 81886000
        rd      %psr, %g2                       ! 85480000
        rd      %y, %g3                         ! 87400000
        ta      0                               ! 91D02000
