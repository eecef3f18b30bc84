; Keeps the picture off (P00 low) until the host has spoken to the monitor, which it waits for by the
; address interrupt. docs/RECALL.md tells what a wait like this did.

        .include "nt6861.inc"
        vectors reset, service

spoken  = $80

reset:  sei
        cld
        ldx     #STACK
        txs
        lda     #$FE            ; P00 low: no picture
        sta     PT0
        lda     #0
        sta     spoken
        lda     #DDC2B
        sta     MDCON
        lda     #0              ; ENDDC 0
        sta     IISTS
        lda     #INTA|INTD
        sta     IEX
        cli

wait:   lda     #CLEAR
        sta     CLRWDT
        lda     spoken
        beq     wait

        lda     #$FF            ; P00 high: picture
        sta     PT0
on:     lda     #CLEAR
        sta     CLRWDT
        jmp     on

service:
        pha
        lda     IRQX
        and     #INTA
        beq     data
        sta     CLRFLG
        sta     spoken
data:   lda     IRQX
        and     #INTD
        beq     done
        sta     CLRFLG
        lda     #0              ; lets SCL go; what was written is passed over
        sta     IIDAT
done:   pla
        rti
