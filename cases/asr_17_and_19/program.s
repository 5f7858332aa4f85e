        wr      -1, %asr17                      ! A3803FFF
        .word   0x83446000                      ! 83446000  rd %asr17, %g1
        .word   0x8544e000                      ! 8544E000  rd %asr19, %g2
        ta      0                               ! 91D02000
