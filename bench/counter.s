; 100,000 additions to one word under a lock, by each processor.
.words 4
.locks 1
li r1 100000
loop: lock 0
ld r3 r0 0
addi r3 r3 1
st r3 r0 0
unlock 0
subi r1 r1 1
bne r1 r0 loop
halt
