        wr      %g0, 0, %wim                    ! 81902000
        rett    2                               ! 81C82002
