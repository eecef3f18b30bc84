; Sorts 100 bytes of a sequence by insertion, looks whether they ascend, and begins again.
; DACH0: the least byte; DACH1: the greatest; DACH2: the 50th; DACH3: their sum; DACH4: passes that
; went wrong; DACH5, 6: passes.

        .include "nt6861.inc"
        vectors reset, reset

COUNT   = 100
LIST    = $0100
BEFORE  = LIST-1        ; absolute where indexed: in page zero it would wrap

seed    = $80
value   = $81
place   = $82
sum     = $83
wrong   = $84
passes  = $85           ; 2 bytes

reset:  sei
        cld
        ldx     #STACK
        txs
        lda     #0
        sta     seed
        sta     wrong
        sta     passes
        sta     passes+1

pass:   lda     #CLEAR
        sta     CLRWDT
        jsr     fill
        jsr     sort
        jsr     check
        inc     passes
        bne     show
        inc     passes+1
show:   lda     LIST
        sta     DACH0
        lda     LIST+COUNT-1
        sta     DACH0+1
        lda     LIST+COUNT/2-1
        sta     DACH0+2
        lda     sum
        sta     DACH0+3
        lda     wrong
        sta     DACH0+4
        lda     passes
        sta     DACH0+5
        lda     passes+1
        sta     DACH0+6
        jmp     pass

; seed = 5 seed + 17 for each byte; the sequence goes on from pass to pass
fill:   ldx     #0
more:   lda     seed
        asl     a
        asl     a
        clc
        adc     seed
        clc
        adc     #17
        sta     seed
        sta     LIST,x
        inx
        cpx     #COUNT
        bne     more
        rts

sort:   ldx     #1
insert: stx     place
        lda     LIST,x
        sta     value
down:   lda     a:BEFORE,x
        cmp     value
        bcc     found
        beq     found
        sta     LIST,x
        dex
        bne     down
found:  lda     value
        sta     LIST,x
        ldx     place
        inx
        cpx     #COUNT
        bne     insert
        rts

check:  lda     LIST
        sta     sum
        ldx     #1
next:   lda     LIST,x
        cmp     a:BEFORE,x
        bcs     ascend
        inc     wrong
ascend: clc
        adc     sum
        sta     sum
        inx
        cpx     #COUNT
        bne     next
        rts
