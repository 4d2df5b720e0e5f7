; A monitor: it dumps memory, fills it and calls programs in it.
;
;   D AAAA           sixteen bytes from address AAAA
;   F AAAA BBBB HH   byte HH into AAAA to BBBB
;   G AAAA           calls AAAA; a RET comes back
;
; It waits for each key of port 0 in HLT, with the receive interrupt (RST 7), and polls to send.
; The mnemonics are those of the Z80, which pasmo reads; each instruction is one of the 8080's.

        org 0000h
        ld sp,0400h
        ld a,03h                ; MVI A,03: master reset
        out (10h),a
        ld a,95h                ; 8N1, receive interrupt
        out (10h),a
        jp start

        org 0038h
        push af                 ; RST 7: a key has come
        in a,(11h)
        ld (key),a
        ld a,1
        ld (full),a
        pop af
        ret                     ; interrupts stay off: getc turns them on

start:  ld hl,banner
        call puts
prompt: call crlf
        ld a,'*'
        call putc
        call echo
        cp 'D'
        jp z,dump
        cp 'F'
        jp z,fill
        cp 'G'
        jp z,go
        ld a,'?'
        call putc
        jp prompt

; D AAAA
dump:   call word
        call crlf
        ld a,h
        call hex
        ld a,l
        call hex
        ld b,16
dump1:  ld a,' '
        call putc
        ld a,(hl)
        call hex
        inc hl
        dec b
        jp nz,dump1
        jp prompt

; F AAAA BBBB HH
fill:   call word
        push hl
        call word               ; HL: the last address
        pop de                  ; DE: the next one to fill
        call space
        call byte
        ld c,a
fill1:  ld a,c
        ld (de),a
        ld a,d
        cp h
        jp nz,fill2
        ld a,e
        cp l
        jp z,prompt
fill2:  inc de
        jp fill1

; G AAAA
go:     call word
        call crlf
        ld de,prompt
        push de
        jp (hl)                 ; PCHL

; a space and four digits: HL
word:   call space
        call byte
        ld h,a
        call byte
        ld l,a
        ret

; two digits: A
byte:   push bc
        call digit
        rlca
        rlca
        rlca
        rlca
        ld b,a
        call digit
        or b
        pop bc
        ret

; one digit: A; what is no digit counts as some
digit:  call echo
        sub '0'
        cp 10
        ret c
        sub 7
        and 0fh
        ret

; any one key
space:  jp echo

; a key, which is echoed: A
echo:   call getc
        jp putc

getc:   ld a,(full)
        or a
        jp nz,getc1
        ei
        halt
        jp getc
getc1:  xor a
        ld (full),a
        ld a,(key)
        ret

crlf:   ld a,13
        call putc
        ld a,10
        jp putc

; A as two digits
hex:    push af
        rrca
        rrca
        rrca
        rrca
        call hex1
        pop af
hex1:   and 0fh
        add a,90h               ; the usual four instructions to a digit
        daa
        adc a,40h
        daa
        jp putc

; the text at HL, up to a zero
puts:   ld a,(hl)
        or a
        ret z
        call putc
        inc hl
        jp puts

; sends A, which it keeps
putc:   push af
putc1:  in a,(10h)
        and 02h                 ; TDRE
        jp z,putc1
        pop af
        out (11h),a
        ret

banner: defb "MONITOR",0
key:    defb 0
full:   defb 0
        end
