; Plain arithmetic and a jump, by each processor, again and again.
.words 4
loop: addi r1 r1 1
addi r2 r2 1
addi r3 r3 1
addi r4 r4 1
addi r5 r5 1
addi r6 r6 1
addi r7 r7 1
jmp loop
