! %g7 is the base of the output word
        sethi   %hi(0x80000000), %g7            ! 0F200000

        call    start_0                         ! 400000C9
        nop                                     ! 01000000
        add     %g1, %g2, %g3                   ! 86004002
        call    put_result                      ! 400000B2
        nop                                     ! 01000000

        call    start_0                         ! 400000C4
        nop                                     ! 01000000
        addcc   %g1, %g2, %g3                   ! 86804002
        call    put_result                      ! 400000AD
        nop                                     ! 01000000

        call    start_0                         ! 400000BF
        nop                                     ! 01000000
        addx    %g1, %g2, %g3                   ! 86404002
        call    put_result                      ! 400000A8
        nop                                     ! 01000000

        call    start_0                         ! 400000BA
        nop                                     ! 01000000
        addxcc  %g1, %g2, %g3                   ! 86C04002
        call    put_result                      ! 400000A3
        nop                                     ! 01000000

        call    start_0                         ! 400000B5
        nop                                     ! 01000000
        sub     %g1, %g2, %g3                   ! 86204002
        call    put_result                      ! 4000009E
        nop                                     ! 01000000

        call    start_0                         ! 400000B0
        nop                                     ! 01000000
        subcc   %g1, %g2, %g3                   ! 86A04002
        call    put_result                      ! 40000099
        nop                                     ! 01000000

        call    start_0                         ! 400000AB
        nop                                     ! 01000000
        subx    %g1, %g2, %g3                   ! 86604002
        call    put_result                      ! 40000094
        nop                                     ! 01000000

        call    start_0                         ! 400000A6
        nop                                     ! 01000000
        subxcc  %g1, %g2, %g3                   ! 86E04002
        call    put_result                      ! 4000008F
        nop                                     ! 01000000

        call    start_1                         ! 400000AC
        nop                                     ! 01000000
        and     %g1, %g2, %g3                   ! 86084002
        call    put_result                      ! 4000008A
        nop                                     ! 01000000

        call    start_1                         ! 400000A7
        nop                                     ! 01000000
        andcc   %g1, %g2, %g3                   ! 86884002
        call    put_result                      ! 40000085
        nop                                     ! 01000000

        call    start_1                         ! 400000A2
        nop                                     ! 01000000
        or      %g1, %g2, %g3                   ! 86104002
        call    put_result                      ! 40000080
        nop                                     ! 01000000

        call    start_1                         ! 4000009D
        nop                                     ! 01000000
        orcc    %g1, %g2, %g3                   ! 86904002
        call    put_result                      ! 4000007B
        nop                                     ! 01000000

        call    start_1                         ! 40000098
        nop                                     ! 01000000
        xor     %g1, %g2, %g3                   ! 86184002
        call    put_result                      ! 40000076
        nop                                     ! 01000000

        call    start_1                         ! 40000093
        nop                                     ! 01000000
        xorcc   %g1, %g2, %g3                   ! 86984002
        call    put_result                      ! 40000071
        nop                                     ! 01000000

        call    start_1                         ! 4000008E
        nop                                     ! 01000000
        andn    %g1, %g2, %g3                   ! 86284002
        call    put_result                      ! 4000006C
        nop                                     ! 01000000

        call    start_1                         ! 40000089
        nop                                     ! 01000000
        andncc  %g1, %g2, %g3                   ! 86A84002
        call    put_result                      ! 40000067
        nop                                     ! 01000000

        call    start_1                         ! 40000084
        nop                                     ! 01000000
        orn     %g1, %g2, %g3                   ! 86304002
        call    put_result                      ! 40000062
        nop                                     ! 01000000

        call    start_1                         ! 4000007F
        nop                                     ! 01000000
        orncc   %g1, %g2, %g3                   ! 86B04002
        call    put_result                      ! 4000005D
        nop                                     ! 01000000

        call    start_1                         ! 4000007A
        nop                                     ! 01000000
        xnor    %g1, %g2, %g3                   ! 86384002
        call    put_result                      ! 40000058
        nop                                     ! 01000000

        call    start_1                         ! 40000075
        nop                                     ! 01000000
        xnorcc  %g1, %g2, %g3                   ! 86B84002
        call    put_result                      ! 40000053
        nop                                     ! 01000000

        call    start_2                         ! 4000007B
        nop                                     ! 01000000
        sll     %g1, %g2, %g3                   ! 87284002
        call    put_result                      ! 4000004E
        nop                                     ! 01000000

        call    start_2                         ! 40000076
        nop                                     ! 01000000
        srl     %g1, %g2, %g3                   ! 87304002
        call    put_result                      ! 40000049
        nop                                     ! 01000000

        call    start_2                         ! 40000071
        nop                                     ! 01000000
        sra     %g1, %g2, %g3                   ! 87384002
        call    put_result                      ! 40000044
        nop                                     ! 01000000

        call    start_3                         ! 40000077
        nop                                     ! 01000000
        umul    %g1, %g2, %g3                   ! 86504002
        call    put_result                      ! 4000003F
        nop                                     ! 01000000

        call    start_3                         ! 40000072
        nop                                     ! 01000000
        umulcc  %g1, %g2, %g3                   ! 86D04002
        call    put_result                      ! 4000003A
        nop                                     ! 01000000

        call    start_3                         ! 4000006D
        nop                                     ! 01000000
        smul    %g1, %g2, %g3                   ! 86584002
        call    put_result                      ! 40000035
        nop                                     ! 01000000

        call    start_3                         ! 40000068
        nop                                     ! 01000000
        smulcc  %g1, %g2, %g3                   ! 86D84002
        call    put_result                      ! 40000030
        nop                                     ! 01000000

        call    start_4                         ! 4000006E
        nop                                     ! 01000000
        udiv    %g1, %g2, %g3                   ! 86704002
        call    put_result                      ! 4000002B
        nop                                     ! 01000000

        call    start_4                         ! 40000069
        nop                                     ! 01000000
        udivcc  %g1, %g2, %g3                   ! 86F04002
        call    put_result                      ! 40000026
        nop                                     ! 01000000

        call    start_5                         ! 4000006F
        nop                                     ! 01000000
        sdiv    %g1, %g2, %g3                   ! 86784002
        call    put_result                      ! 40000021
        nop                                     ! 01000000

        call    start_5                         ! 4000006A
        nop                                     ! 01000000
        sdivcc  %g1, %g2, %g3                   ! 86F84002
        call    put_result                      ! 4000001C
        nop                                     ! 01000000

        call    start_6                         ! 40000070
        nop                                     ! 01000000
        mulscc  %g1, %g2, %g3                   ! 87204002
        call    put_result                      ! 40000017
        nop                                     ! 01000000

        call    start_7                         ! 40000076
        nop                                     ! 01000000
        taddcc  %g1, %g2, %g3                   ! 87004002
        call    put_result                      ! 40000012
        nop                                     ! 01000000

        call    start_7                         ! 40000071
        nop                                     ! 01000000
        tsubcc  %g1, %g2, %g3                   ! 87084002
        call    put_result                      ! 4000000D
        nop                                     ! 01000000

        call    start_8                         ! 40000077
        nop                                     ! 01000000
        taddcctv %g1, %g2, %g3                  ! 87104002
        call    put_result                      ! 40000008
        nop                                     ! 01000000

        call    start_8                         ! 40000072
        nop                                     ! 01000000
        tsubcctv %g1, %g2, %g3                  ! 87184002
        call    put_result                      ! 40000003
        nop                                     ! 01000000

        ta      0                               ! 91D02000

! puts out %g3, the codes and Y
put_result:
        rd      %psr, %g4                       ! 89480000
        rd      %y, %g5                         ! 8B400000
        mov     %o7, %g6                        ! 8C10000F
        call    put_word                        ! 40000009
        mov     %g3, %o0                        ! 90100003
        srl     %g4, 20, %g4                    ! 89312014
        and     %g4, 15, %g4                    ! 8809200F
        st      %g4, [ %g7 + 0x100 ]            ! C821E100
        call    put_word                        ! 40000004
        mov     %g5, %o0                        ! 90100005
        jmp     %g6 + 8                         ! 81C1A008
        nop                                     ! 01000000

! puts out the four bytes of %o0, the highest first
put_word:
        srl     %o0, 24, %o1                    ! 93322018
        st      %o1, [ %g7 + 0x100 ]            ! D221E100
        srl     %o0, 16, %o1                    ! 93322010
        st      %o1, [ %g7 + 0x100 ]            ! D221E100
        srl     %o0, 8, %o1                     ! 93322008
        st      %o1, [ %g7 + 0x100 ]            ! D221E100
        retl                                    ! 81C3E008
        st      %o0, [ %g7 + 0x100 ]            ! D021E100

! codes 5
start_0:
        sethi   %hi(0x80000003), %g1            ! 03200000
        or      %g1, 0x3, %g1                   ! 82106003
        sethi   %hi(0x80000006), %g2            ! 05200000
        or      %g2, 0x6, %g2                   ! 8410A006
        sethi   %hi(0x0000000d), %g3            ! 07000000
        or      %g3, 0xd, %g3                   ! 8610E00D
        wr      %g3, 0, %y                      ! 8180E000
        sethi   %hi(0x00500080), %g3            ! 07001400
        or      %g3, 0x80, %g3                  ! 8610E080
        retl                                    ! 81C3E008
        wr      %g3, 0, %psr                    ! 8188E000

! codes 5
start_1:
        sethi   %hi(0xf0f000ff), %g1            ! 033C3C00
        or      %g1, 0xff, %g1                  ! 821060FF
        sethi   %hi(0x0ff00f0f), %g2            ! 0503FC03
        or      %g2, 0x30f, %g2                 ! 8410A30F
        sethi   %hi(0x0000000d), %g3            ! 07000000
        or      %g3, 0xd, %g3                   ! 8610E00D
        wr      %g3, 0, %y                      ! 8180E000
        sethi   %hi(0x00500080), %g3            ! 07001400
        or      %g3, 0x80, %g3                  ! 8610E080
        retl                                    ! 81C3E008
        wr      %g3, 0, %psr                    ! 8188E000

! codes 5
start_2:
        sethi   %hi(0x80000010), %g1            ! 03200000
        or      %g1, 0x10, %g1                  ! 82106010
        sethi   %hi(0x00000024), %g2            ! 05000000
        or      %g2, 0x24, %g2                  ! 8410A024
        sethi   %hi(0x0000000d), %g3            ! 07000000
        or      %g3, 0xd, %g3                   ! 8610E00D
        wr      %g3, 0, %y                      ! 8180E000
        sethi   %hi(0x00500080), %g3            ! 07001400
        or      %g3, 0x80, %g3                  ! 8610E080
        retl                                    ! 81C3E008
        wr      %g3, 0, %psr                    ! 8188E000

! codes 5
start_3:
        sethi   %hi(0xfffffffe), %g1            ! 033FFFFF
        or      %g1, 0x3fe, %g1                 ! 821063FE
        sethi   %hi(0x00000003), %g2            ! 05000000
        or      %g2, 0x3, %g2                   ! 8410A003
        sethi   %hi(0x0000000d), %g3            ! 07000000
        or      %g3, 0xd, %g3                   ! 8610E00D
        wr      %g3, 0, %y                      ! 8180E000
        sethi   %hi(0x00500080), %g3            ! 07001400
        or      %g3, 0x80, %g3                  ! 8610E080
        retl                                    ! 81C3E008
        wr      %g3, 0, %psr                    ! 8188E000

! codes 5
start_4:
        sethi   %hi(0x80000001), %g1            ! 03200000
        or      %g1, 0x1, %g1                   ! 82106001
        sethi   %hi(0xfffffffe), %g2            ! 053FFFFF
        or      %g2, 0x3fe, %g2                 ! 8410A3FE
        sethi   %hi(0x00000001), %g3            ! 07000000
        or      %g3, 0x1, %g3                   ! 8610E001
        wr      %g3, 0, %y                      ! 8180E000
        sethi   %hi(0x00500080), %g3            ! 07001400
        or      %g3, 0x80, %g3                  ! 8610E080
        retl                                    ! 81C3E008
        wr      %g3, 0, %psr                    ! 8188E000

! codes 5
start_5:
        sethi   %hi(0x80000001), %g1            ! 03200000
        or      %g1, 0x1, %g1                   ! 82106001
        sethi   %hi(0xfffffffe), %g2            ! 053FFFFF
        or      %g2, 0x3fe, %g2                 ! 8410A3FE
        sethi   %hi(0xffffffff), %g3            ! 073FFFFF
        or      %g3, 0x3ff, %g3                 ! 8610E3FF
        wr      %g3, 0, %y                      ! 8180E000
        sethi   %hi(0x00500080), %g3            ! 07001400
        or      %g3, 0x80, %g3                  ! 8610E080
        retl                                    ! 81C3E008
        wr      %g3, 0, %psr                    ! 8188E000

! codes 9
start_6:
        sethi   %hi(0x80000001), %g1            ! 03200000
        or      %g1, 0x1, %g1                   ! 82106001
        sethi   %hi(0x12345678), %g2            ! 05048D15
        or      %g2, 0x278, %g2                 ! 8410A278
        sethi   %hi(0x0000000d), %g3            ! 07000000
        or      %g3, 0xd, %g3                   ! 8610E00D
        wr      %g3, 0, %y                      ! 8180E000
        sethi   %hi(0x00900080), %g3            ! 07002400
        or      %g3, 0x80, %g3                  ! 8610E080
        retl                                    ! 81C3E008
        wr      %g3, 0, %psr                    ! 8188E000

! codes 5
start_7:
        sethi   %hi(0x7ffffffd), %g1            ! 031FFFFF
        or      %g1, 0x3fd, %g1                 ! 821063FD
        sethi   %hi(0x00000004), %g2            ! 05000000
        or      %g2, 0x4, %g2                   ! 8410A004
        sethi   %hi(0x0000000d), %g3            ! 07000000
        or      %g3, 0xd, %g3                   ! 8610E00D
        wr      %g3, 0, %y                      ! 8180E000
        sethi   %hi(0x00500080), %g3            ! 07001400
        or      %g3, 0x80, %g3                  ! 8610E080
        retl                                    ! 81C3E008
        wr      %g3, 0, %psr                    ! 8188E000

! codes 5
start_8:
        sethi   %hi(0xfffffffc), %g1            ! 033FFFFF
        or      %g1, 0x3fc, %g1                 ! 821063FC
        sethi   %hi(0x00000008), %g2            ! 05000000
        or      %g2, 0x8, %g2                   ! 8410A008
        sethi   %hi(0x0000000d), %g3            ! 07000000
        or      %g3, 0xd, %g3                   ! 8610E00D
        wr      %g3, 0, %y                      ! 8180E000
        sethi   %hi(0x00500080), %g3            ! 07001400
        or      %g3, 0x80, %g3                  ! 8610E080
        retl                                    ! 81C3E008
        wr      %g3, 0, %psr                    ! 8188E000
