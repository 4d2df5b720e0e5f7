; Checks whose results are published, each on a line:
;
;   CRC-32 of "123456789"             CBF43926
;   CRC-16/XMODEM of "123456789"      31C3
;   2 to the 32nd, by DAA             4294967296
;   the number of primes below 1000   00A8 (168)
;   12 factorial                      1C8CFC00 (479001600)
;
; The mnemonics are those of the Z80, which pasmo reads; each instruction is one of the 8080's.

        org 0000h
        ld sp,0800h
        ld a,03h                ; port 0: master reset, 8N1
        out (10h),a
        ld a,15h
        out (10h),a
        call crc32
        call crc16
        call power
        call primes
        call factor
        halt

; ---- CRC-32: polynomial EDB88320, reflected; DEHL is the register -------------------------------------------------
crc32:  ld a,0ffh
        ld (acc),a
        ld (acc+1),a
        ld (acc+2),a
        ld (acc+3),a
        ld hl,digits
c32b:   ld a,(hl)
        or a
        jp z,c32end
        push hl
        ld hl,acc               ; the byte goes into the low end
        xor (hl)
        ld (hl),a
        ld b,8
c32s:   ld hl,acc+3             ; one bit to the right, from the high end
        or a
        ld c,4
c32r:   ld a,(hl)
        rra
        ld (hl),a
        dec hl
        dec c                   ; DCR leaves the carry
        jp nz,c32r
        jp nc,c32n
        ld a,(acc)
        xor 20h
        ld (acc),a
        ld a,(acc+1)
        xor 83h
        ld (acc+1),a
        ld a,(acc+2)
        xor 0b8h
        ld (acc+2),a
        ld a,(acc+3)
        xor 0edh
        ld (acc+3),a
c32n:   dec b
        jp nz,c32s
        pop hl
        inc hl
        jp c32b
c32end: ld hl,acc+3             ; the complement, high byte first
        ld b,4
c32p:   ld a,(hl)
        cpl
        call hex
        dec hl
        dec b
        jp nz,c32p
        jp crlf

; ---- CRC-16: polynomial 1021, from 0; DE is the register ------------------------------------------------------------
crc16:  ld de,0
        ld hl,digits
c16b:   ld a,(hl)
        or a
        jp z,c16end
        xor d
        ld d,a
        ld b,8
c16s:   ex de,hl
        add hl,hl               ; DAD H: the bit that leaves is the carry
        ex de,hl
        jp nc,c16n
        ld a,d
        xor 10h
        ld d,a
        ld a,e
        xor 21h
        ld e,a
c16n:   dec b
        jp nz,c16s
        inc hl
        jp c16b
c16end: ld a,d
        call hex
        ld a,e
        call hex
        jp crlf

; ---- 2 to the 32nd in decimal digits, two a byte ---------------------------------------------------------------------
power:  ld hl,acc               ; 1
        ld (hl),1
        ld b,4
pow0:   inc hl
        ld (hl),0
        dec b
        jp nz,pow0
        ld b,32
pow1:   ld hl,acc
        ld c,5
        or a
pow2:   ld a,(hl)
        adc a,a                 ; ADC A and DAA: doubled, in decimal
        daa
        ld (hl),a
        inc hl
        dec c
        jp nz,pow2
        dec b
        jp nz,pow1
        ld b,5
pow3:   dec hl
        ld a,(hl)
        call hex
        dec b
        jp nz,pow3
        jp crlf

; ---- the primes below 1000, by crossing out --------------------------------------------------------------------------
primes: ld hl,sieve
        ld bc,1000
pr0:    ld (hl),0
        inc hl
        dec bc
        ld a,b
        or c
        jp nz,pr0
        ld hl,2                 ; HL: the number that is looked at
        ld bc,0                 ; BC: how many primes
pr1:    push hl
        ld de,sieve
        add hl,de
        ld a,(hl)
        pop hl
        or a
        jp nz,pr4
        inc bc
        push hl
        ld d,h
        ld e,l
pr2:    add hl,de               ; cross out its multiples
        push hl
        push de
        ld de,0fc18h            ; - 1000
        add hl,de
        pop de
        pop hl
        jp c,pr3
        push hl
        push de
        ld de,sieve
        add hl,de
        ld (hl),1
        pop de
        pop hl
        jp pr2
pr3:    pop hl
pr4:    inc hl
        push hl
        ld de,0fc18h
        add hl,de
        pop hl
        jp nc,pr1
        ld a,b
        call hex
        ld a,c
        call hex
        jp crlf

; ---- 12 factorial: the low half in HL, the high half in DE, by adding -------------------------------------------------
factor: ld hl,1
        ld (flow),hl
        ld hl,0
        ld (fhigh),hl
        ld b,1
fa1:    inc b
        ld a,b
        cp 13
        jp z,fa3
        ld c,b                  ; B times
        ld de,0
        ld hl,0
fa2:    push de
        ex de,hl
        ld hl,(flow)
        add hl,de
        pop de
        push hl
        jp nc,fa4
        inc de
fa4:    ld hl,(fhigh)
        add hl,de
        ex de,hl
        pop hl
        dec c
        jp nz,fa2
        ld (flow),hl
        ex de,hl
        ld (fhigh),hl
        jp fa1
fa3:    ld a,(fhigh+1)
        call hex
        ld a,(fhigh)
        call hex
        ld a,(flow+1)
        call hex
        ld a,(flow)
        call hex
        jp crlf

; ---- output ------------------------------------------------------------------------------------------------------------
hex:    push af
        rrca
        rrca
        rrca
        rrca
        call hex1
        pop af
hex1:   and 0fh
        add a,90h
        daa
        adc a,40h
        daa
putc:   push af
putc1:  in a,(10h)
        and 02h
        jp z,putc1
        pop af
        out (11h),a
        ret
crlf:   ld a,13
        call putc
        ld a,10
        jp putc

digits: defb "123456789",0
acc:    defs 5
flow:    defw 0
fhigh:   defw 0
sieve:  equ 1000h
        end
