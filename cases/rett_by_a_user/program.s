        wr      %g0, 0, %psr                    ! 81882000
        rett    %g0                             ! 81C80000
