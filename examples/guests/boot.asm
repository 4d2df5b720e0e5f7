; The boot PROM: reads sector 0 of track 0 of drive 0 to 1000h, and jumps there.
;
; The mnemonics are those of the Z80, which pasmo reads; each instruction is one of the 8080's.

        org 0000h
        ld sp,0800h
        xor a                   ; drive 0
        out (08h),a
        ld a,04h                ; load the head
        out (09h),a
seek:   in a,(09h)
        cp 0c0h
        jp nz,seek
        ld hl,1000h
        ld b,137
read:   in a,(08h)              ; NRDA: new read data available
        rlca
        jp c,read
        in a,(0ah)
        ld (hl),a
        inc hl
        dec b
        jp nz,read
        jp 1000h
        end
