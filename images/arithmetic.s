; Arithmetic in 8, 16 and 32 bits, binary and decimal. Each pass takes the next two numbers a and b of
; a sequence, multiplies them, divides the product by a, which must give b again and nothing over,
; and writes the product's lower half in decimal digits.
; DACH0..3: product, low byte first; DACH4..6: its lower 16 bits in decimal; DACH7: passes that went
; wrong; DACH8, 9: passes.

        .include "nt6861.inc"
        vectors reset, reset

seed    = $80           ; 2 bytes
a16     = $82           ; 2 bytes
b16     = $84           ; 2 bytes
prod    = $86           ; 4 bytes
quot    = $8A           ; 4 bytes
rest    = $8E           ; 2 bytes
bin     = $90           ; 2 bytes
bcd     = $92           ; 3 bytes
wrong   = $95
passes  = $96           ; 2 bytes

reset:  sei
        cld
        ldx     #STACK
        txs
        lda     #0
        ldx     #passes+1-seed
zero:   sta     seed,x
        dex
        bpl     zero

pass:   lda     #CLEAR
        sta     CLRWDT
        jsr     number
        lda     seed
        ora     #1              ; a divisor that is not 0
        sta     a16
        lda     seed+1
        sta     a16+1
        jsr     number
        lda     seed
        sta     b16
        lda     seed+1
        sta     b16+1
        jsr     multiply
        jsr     divide
        jsr     decimal

        lda     quot
        cmp     b16
        bne     bad
        lda     quot+1
        cmp     b16+1
        bne     bad
        lda     quot+2
        ora     quot+3
        ora     rest
        ora     rest+1
        beq     good
bad:    inc     wrong
good:   inc     passes
        bne     show
        inc     passes+1

show:   ldx     #3
words:  lda     prod,x
        sta     DACH0,x
        dex
        bpl     words
        ldx     #2
digits: lda     bcd,x
        sta     DACH0+4,x
        dex
        bpl     digits
        lda     wrong
        sta     DACH0+7
        lda     passes
        sta     DACH0+8
        lda     passes+1
        sta     DACH0+9
        jmp     pass

; seed = 5 seed + 12345
number: lda     seed
        sta     bin
        lda     seed+1
        sta     bin+1
        asl     bin
        rol     bin+1
        asl     bin
        rol     bin+1
        clc
        lda     bin
        adc     seed
        sta     seed
        lda     bin+1
        adc     seed+1
        sta     seed+1
        clc
        lda     seed
        adc     #<12345
        sta     seed
        lda     seed+1
        adc     #>12345
        sta     seed+1
        rts

; prod = a16 * b16, by shifting and adding
multiply:
        lda     b16
        sta     prod
        lda     b16+1
        sta     prod+1
        lda     #0
        sta     prod+2
        sta     prod+3
        ldx     #16
bit1:   lsr     prod+1
        ror     prod
        bcc     shift
        clc
        lda     prod+2
        adc     a16
        sta     prod+2
        lda     prod+3
        adc     a16+1
        sta     prod+3
shift:  ror     prod+3          ; with the carry, or the 0 that was shifted out
        ror     prod+2
        bcc     clear
        lda     prod+1
        ora     #$80
        sta     prod+1
clear:  dex
        bne     bit1
        rts

; quot = prod / a16 and rest, bit by bit
divide: ldx     #3
same:   lda     prod,x
        sta     quot,x
        dex
        bpl     same
        lda     #0
        sta     rest
        sta     rest+1
        ldx     #32
bit2:   asl     quot
        rol     quot+1
        rol     quot+2
        rol     quot+3
        rol     rest
        rol     rest+1
        bcs     over            ; 17 bits: it is greater
        lda     rest+1
        cmp     a16+1
        bcc     less
        bne     over
        lda     rest
        cmp     a16
        bcc     less
over:   sec
        lda     rest
        sbc     a16
        sta     rest
        lda     rest+1
        sbc     a16+1
        sta     rest+1
        inc     quot
less:   dex
        bne     bit2
        rts

; bcd = the lower half of prod: doubled in decimal mode for each bit
decimal:
        lda     prod
        sta     bin
        lda     prod+1
        sta     bin+1
        lda     #0
        sta     bcd
        sta     bcd+1
        sta     bcd+2
        sed
        ldx     #16
bit3:   asl     bin
        rol     bin+1
        lda     bcd
        adc     bcd
        sta     bcd
        lda     bcd+1
        adc     bcd+1
        sta     bcd+1
        lda     bcd+2
        adc     bcd+2
        sta     bcd+2
        dex
        bne     bit3
        cld
        rts
