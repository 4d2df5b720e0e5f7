; A loader in a boot sector: it is sector 0 of track 0, and the PROM has read it to 1000h. It reads sectors 1 and 2 to
; 2000h and on, and jumps there. The program that it loads is hello.asm.
;
; The mnemonics are those of the Z80, which pasmo reads; each instruction is one of the 8080's.

        org 1000h
        ld hl,2000h
        ld c,1                  ; C: the sector that is wanted
load:   in a,(09h)
        cp 0ffh
        jp z,load               ; no sector there
        sub 0c0h
        rrca
        cp c
        jp nz,load              ; another one: the next look makes it leave
        ld b,137
read:   in a,(08h)
        rlca
        jp c,read
        in a,(0ah)
        ld (hl),a
        inc hl
        dec b
        jp nz,read
        inc c
        ld a,c
        cp 3
        jp nz,load
        jp 2000h
        end
