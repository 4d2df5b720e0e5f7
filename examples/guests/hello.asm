; The program that loader.asm reads from the disk: it says where it came from, and counts.
;
; The mnemonics are those of the Z80, which pasmo reads; each instruction is one of the 8080's.

        org 2000h
        ld a,03h                ; port 0: master reset, 8N1
        out (10h),a
        ld a,15h
        out (10h),a
        ld hl,text
        call puts
        ld c,'0'
count:  ld a,c
        call putc
        ld a,' '
        call putc
        inc c
        ld a,c
        cp '9'+1
        jp nz,count
        ld hl,bye
        call puts
        halt

puts:   ld a,(hl)
        or a
        ret z
        call putc
        inc hl
        jp puts

putc:   push af
putc1:  in a,(10h)
        and 02h
        jp z,putc1
        pop af
        out (11h),a
        ret

text:   defb "Loaded from sectors 1 and 2 of the disk, by the loader in sector 0.",13,10
        defb "This text crosses the border between them. Counting: ",0
bye:    defb "- done.",13,10,0
        end
