; Each processor in turn adds 1 to a word of each of 64 small pages, under a lock: on several nodes each page is faulted on anew.
.pages 64
.words 1
.locks 1
li r2 64
loop: lock 0
li r1 0
each: ld r3 r1 0
addi r3 r3 1
st r3 r1 0
addi r1 r1 1
blt r1 r2 each
unlock 0
jmp loop
