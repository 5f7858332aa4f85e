        call    . - 1073741828                  ! 6FFFFFFF
        nop                                     ! 01000000
        ta      0                               ! 91D02000
