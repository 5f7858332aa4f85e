        mov     7, %o0                          ! 90102007
        save                                    ! 81E00000
        add     %i0, 1, %i1                     ! B2062001
        mov     9, %l0                          ! A0102009
        restore %l0, %i1, %l0                   ! A1EC0019
        ta      0                               ! 91D02000
