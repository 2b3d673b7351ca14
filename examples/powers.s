; Fills the page with powers of 3, prints the last one, and then 2^64 - 1 as what 0 - 1 gives.
; Look at the line `page`, and at the loop: it ends since r2 counts the words up to r4. With `bge` in place of `blt`
; it runs once. With `jmp next` in place of `blt` the address 8 stops the processor.
.words 8
li r1 1         ; the power
li r2 0         ; the address of its word
li r3 3
li r4 8
next: st r1 r2 0
mul r1 r1 r3
addi r2 r2 1
blt r2 r4 next
ld r5 r2 18446744073709551615   ; the address r2 - 1: sums are modulo 2^64
out r5
subi r6 r0 1
out r6
