; Reads sector 3 of track 0 of drive 0, turns its small letters into capitals, and writes it back; then it says DONE.
;
; The mnemonics are those of the Z80, which pasmo reads; each instruction is one of the 8080's.

        org 0000h
        ld sp,0800h
        ld a,03h                ; port 0: master reset, 8N1
        out (10h),a
        ld a,15h
        out (10h),a
        xor a                   ; drive 0
        out (08h),a
        ld a,04h                ; load the head
        out (09h),a

        call seek
        ld hl,buffer
        ld b,137
read:   in a,(08h)              ; NRDA: new read data available
        rlca
        jp c,read
        in a,(0ah)
        ld (hl),a
        inc hl
        dec b
        jp nz,read

        ld hl,buffer
        ld b,137
change: ld a,(hl)
        cp 'a'
        jp c,next
        cp 'z'+1
        jp nc,next
        sub 32
        ld (hl),a
next:   inc hl
        dec b
        jp nz,change

        call seek
        ld a,80h                ; write
        out (09h),a
        ld hl,buffer
        ld b,137
write:  in a,(08h)              ; ENWD: enter new write data
        rrca
        jp c,write
        ld a,(hl)
        out (0ah),a
        inc hl
        dec b
        jp nz,write

        ld hl,text
say:    ld a,(hl)
        or a
        jp z,stop
        out (11h),a
        inc hl
        jp say
stop:   halt

; until sector 3 is under the head
seek:   in a,(09h)
        cp 0c0h+2*3
        jp nz,seek
        ret

text:   defb "DONE",13,10,0
buffer: defs 137
        end
