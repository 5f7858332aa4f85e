        save    %g0, 0, %g0                     ! 81E02000
        restore %g0, 0, %g0                     ! 81E82000
        add     %l0, 0, %o0                     ! 90042000
        ta      0                               ! 91D02000
        nop                                     ! 01000000
