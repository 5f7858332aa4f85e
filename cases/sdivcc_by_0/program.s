        sdivcc  %g0, 0, %g1                     ! 82F82000
        ta      0                               ! 91D02000
