; Two line editors at once, one on each port, by interrupts. What is typed is echoed; the key 08 takes back the last
; character; CR ends the line, which then appears at the other terminal behind a ">".
;
; Port 0 is at level 7, port 1 at level 6: the shell's line `levels 7 6 5`.
; The mnemonics are those of the Z80, which pasmo reads; each instruction is one of the 8080's.

        org 0000h
        ld sp,0800h
        ld a,03h                ; master reset of both ports
        out (10h),a
        out (12h),a
        ld a,95h                ; 8N1, receive interrupt
        out (10h),a
        out (12h),a
        jp main

        org 0030h
        jp isr1                 ; RST 6: a key of port 1

        org 0038h
        push af                 ; RST 7: a key of port 0
        in a,(11h)
        ld (key0),a
        ld a,1
        ld (full0),a
        pop af
        ret

isr1:   push af
        in a,(13h)
        ld (key1),a
        ld a,1
        ld (full1),a
        pop af
        ret

main:   ld a,(full0)
        or a
        jp nz,user0
        ld a,(full1)
        or a
        jp nz,user1
        ei
        halt                    ; until a key comes
        jp main

user0:  xor a
        ld (full0),a
        ld c,0                  ; C: whose terminal
        ld hl,line0             ; HL: a length, and the line
        ld a,(key0)
        call edit
        jp main

user1:  xor a
        ld (full1),a
        ld c,1
        ld hl,line1
        ld a,(key1)
        call edit
        jp main

; the key A of user C, whose line is at HL
edit:   cp 8
        jp z,rub
        cp 13
        jp z,done
        ld b,a
        ld a,(hl)
        cp 64                   ; a line has at most 64 characters
        ret z
        inc (hl)
        call place              ; DE: the place of the last character
        ld a,b
        ld (de),a
        jp putc

; takes back the last character: backspace, space, backspace
rub:    ld a,(hl)
        or a
        ret z
        dec (hl)
        ld a,8
        call putc
        ld a,' '
        call putc
        ld a,8
        jp putc

; the line goes to the other terminal
done:   call crlf
        ld a,c
        xor 1
        ld c,a
        ld a,'>'
        call putc
        ld b,(hl)
        ld (hl),0
        inc b
done1:  dec b
        jp z,crlf
        inc hl
        ld a,(hl)
        call putc
        jp done1

; DE: HL + (HL)
place:  push hl
        ld e,(hl)
        ld d,0
        add hl,de
        ex de,hl
        pop hl
        ret

crlf:   ld a,13
        call putc
        ld a,10

; sends A to the terminal of user C
putc:   push af
        ld a,c
        or a
        jp nz,putc2
putc1:  in a,(10h)
        and 02h
        jp z,putc1
        pop af
        out (11h),a
        ret
putc2:  in a,(12h)
        and 02h
        jp z,putc2
        pop af
        out (13h),a
        ret

key0:   defb 0
full0:  defb 0
key1:   defb 0
full1:  defb 0
line0:  defs 65
line1:  defs 65
        end
