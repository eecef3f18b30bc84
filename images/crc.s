; Cyclic redundancy checks, polynomial 1021H from FFFFH, top bit first: of the nine digits
; "123456789", which is known to be 29B1H, and of the first four pages of this ROM, by (zp),Y.
; DACH0, 1: the first, low byte first; DACH2, 3: the second; DACH4, 5: passes.

        .include "nt6861.inc"
        vectors reset, reset

crc     = $80           ; 2 bytes
from    = $82           ; 2 bytes
pages   = $84
passes  = $85           ; 2 bytes

reset:  sei
        cld
        ldx     #STACK
        txs
        lda     #0
        sta     passes
        sta     passes+1

pass:   jsr     begin
        ldy     #0
digit:  lda     digits,y
        jsr     add
        iny
        cpy     #9
        bne     digit
        lda     crc
        sta     DACH0
        lda     crc+1
        sta     DACH0+1

        jsr     begin
        lda     #<reset
        sta     from
        lda     #>reset
        sta     from+1
        lda     #4
        sta     pages
        ldy     #0
byte:   lda     (from),y
        jsr     add
        iny
        bne     byte
        lda     #CLEAR
        sta     CLRWDT
        inc     from+1
        dec     pages
        bne     byte
        lda     crc
        sta     DACH0+2
        lda     crc+1
        sta     DACH0+3
        inc     passes
        bne     show
        inc     passes+1
show:   lda     passes
        sta     DACH0+4
        lda     passes+1
        sta     DACH0+5
        jmp     pass

begin:  lda     #$FF
        sta     crc
        sta     crc+1
        rts

add:    eor     crc+1
        sta     crc+1
        ldx     #8
bit1:   asl     crc
        rol     crc+1
        bcc     zero
        lda     crc
        eor     #$21
        sta     crc
        lda     crc+1
        eor     #$10
        sta     crc+1
zero:   dex
        bne     bit1
        rts

digits: .byte   "123456789"
