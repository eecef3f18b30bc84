; Serves the EDID block to a host by DDC2B, with interrupts. A byte written to A0H is the word
; offset; a read from A1H goes on from there, around the block.

        .include "nt6861.inc"
        vectors reset, service

offset  = $80
bytes   = $81           ; bytes behind the address so far: 0, 1, more

reset:  sei
        cld
        ldx     #STACK
        txs
        ldx     #127
copy:   lda     edid,x
        sta     BLOCK,x
        dex
        bpl     copy
        lda     #0
        sta     offset
        sta     bytes
        lda     #DDC2B
        sta     MDCON
        lda     #0              ; ENDDC 0
        sta     IISTS
        lda     #INTA|INTD
        sta     IEX
        cli

; Beside the bus: the watchdog, and the field count to two DACs.
loop:   lda     #CLEAR
        sta     CLRWDT
        lda     VCNTL
        sta     DACH0
        lda     VCNTH
        sta     DACH0+1
        jmp     loop

service:
        pha
        txa
        pha
        lda     IRQX
        and     #INTA
        beq     data

; The address matched. Its bit 0 is the direction.
        lda     #INTA
        sta     CLRFLG
        lda     #0
        sta     bytes
        lda     IIDAT
        lsr     a
        lda     #0
        bcc     direct
        lda     #TRX
direct: sta     IISTS           ; clears START and STOP

; The ninth clock is over and SCL is held until II DAT is written.
data:   lda     IRQX
        and     #INTD
        beq     done
        lda     #INTD
        sta     CLRFLG
        lda     IISTS
        and     #TRX
        bne     out

        ldx     bytes           ; written to: the first byte is the offset, others are passed over
        cpx     #1
        bne     next
        lda     IIDAT
        and     #$7F
        sta     offset
next:   cpx     #2
        beq     free
        inc     bytes
free:   lda     #0
        sta     IIDAT
        beq     done

out:    lda     bytes           ; RXAK says nothing of the address
        beq     put
        lda     IISTS
        and     #RXAK
        bne     last
put:    lda     #1
        sta     bytes
        ldx     offset
        lda     BLOCK,x
        inx
        bpl     kept
        ldx     #0
kept:   stx     offset
        sta     IIDAT
        jmp     done

last:   lda     #0              ; not acknowledged: to receive, so that the host can stop
        sta     IISTS
        sta     IIDAT

done:   pla
        tax
        pla
        rti

edid:   .incbin "edid.bin"
