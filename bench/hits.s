; Loads and stores that the mapping allows, by each processor of a word of its own, again and again.
.words 64
me r1
loop: ld r2 r1 0
st r2 r1 0
ld r2 r1 0
st r2 r1 0
ld r2 r1 0
st r2 r1 0
ld r2 r1 0
jmp loop
