        addcc   %g0, -1, %g0                    ! 80803FFF
        jmp     0x40                            ! 81C02040
        add     %g0, 7, %g1                     ! 82002007
        ta      0                               ! 91D02000
