; Each processor stores to and loads from a page of its own, again and again: some 900,000 instructions each.
.pages 32
.words 8
me r1
muli r1 r1 8
li r4 100000
loop: st r4 r1 0
ld r2 r1 0
st r2 r1 1
ld r2 r1 1
st r2 r1 2
ld r2 r1 2
addi r3 r3 1
blt r3 r4 loop
halt
