; Loads and stores of a word of its own, by each processor, again and again.
.words 8
me r1
loop: ld r2 r1 0
addi r2 r2 1
st r2 r1 0
jmp loop
