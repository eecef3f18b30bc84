; Accesses to registers, one after the other: moves the DACs up by one, watches ports and counters,
; counts fields and lines by polling the flags. It is the program that spends its time in the chip.
; DACH0..12 are moved to DACH1..13; DACH0: the port P2 and the found polarities.

        .include "nt6861.inc"
        vectors reset, reset

fields  = $80
lines   = $81           ; 2 bytes

reset:  sei
        cld
        ldx     #STACK
        txs
        lda     #0
        sta     fields
        sta     lines
        sta     lines+1
        lda     #$0F            ; P20..P23 out
        sta     PT2DIR
        lda     #1              ; base timer on its slow clock, running
        sta     BTCON
        lda     #0
        sta     BTCON

loop:   lda     #CLEAR
        sta     CLRWDT
        ldx     #12
move:   lda     DACH0,x
        sta     DACH0+1,x
        dex
        bpl     move
        lda     HVCON
        and     #%00001100
        eor     PT2
        sta     DACH0
        sta     PT2
        lda     PT0
        eor     PT1
        eor     PT3
        sta     PT0
        lda     IRQX
        and     #INTV
        beq     none
        sta     CLRFLG
        inc     fields
        lda     VCNTL
        sta     BT
        lda     HCNTL
        sta     lines
        lda     HCNTH
        sta     lines+1
none:   inc     PT1
        lda     fields
        sta     ENDAC
        jmp     loop
