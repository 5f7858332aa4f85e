        addcc   %g0, -1, %g1                    ! 82803FFF
        addcc   %g1, 1, %g2                     ! 84806001
        addx    %g0, 5, %g3                     ! 86402005
        subcc   %g0, 1, %g4                     ! 88A02001
        subx    %g0, %g0, %g5                   ! 8A600000
        addxcc  %g1, 0, %g6                     ! 8CC06000
        subxcc  %g0, 0, %g7                     ! 8EE02000
        ta      0                               ! 91D02000
