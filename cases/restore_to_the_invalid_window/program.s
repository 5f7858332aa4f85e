        restore                                 ! 81E80000
        ta      0                               ! 91D02000
