        wr      -1, %y                          ! 81803FFF
        add     %g0, -7, %g1                    ! 82003FF9
        sdivcc  %g1, 2, %g2                     ! 84F86002
        ta      0                               ! 91D02000
