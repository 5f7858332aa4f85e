        .word   0x81682000                      ! 81682000  no instruction has this op3
        ta      0                               ! 91D02000
