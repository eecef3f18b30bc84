; Sends the EDID block by DDC1, over and over: each load of the shift register asks for the next byte.

        .include "nt6861.inc"
        vectors reset, service

place   = $80

reset:  sei
        cld
        ldx     #STACK
        txs
        ldx     #127
copy:   lda     edid,x
        sta     BLOCK,x
        dex
        bpl     copy
        lda     #1
        sta     place
        lda     BLOCK           ; the first byte before the first load
        sta     IIDAT
        lda     #DDC1
        sta     MDCON
        lda     #0              ; ENDDC 0
        sta     IISTS
        lda     #INTD
        sta     IEX
        cli

loop:   lda     #CLEAR
        sta     CLRWDT
        jmp     loop

service:
        pha
        txa
        pha
        lda     #INTD
        sta     CLRFLG
        ldx     place
        lda     BLOCK,x
        sta     IIDAT
        inx
        bpl     kept
        ldx     #0
kept:   stx     place
        pla
        tax
        pla
        rti

edid:   .incbin "edid.bin"
