; Fifty times each processor stores its number and 1 to word 7, counts up a word of its own on the same page, and loads word 7 again,
; with nothing between them: a race. Then it prints how often its load gave another's number, and its own word. Run it with
; `sim 1x4`, `sim 2x2` and `sim 4x1`; there is room for 7 processors.
; Look at the first number of each processor: some 50 on one node, where all use one copy of the page; half as many on two nodes; and
; 0 on four, since a node that has its copy gets what others stored behind an acquire alone. With `kind=mixed seed=1` and other seeds
; the events come in other orders: `sim 1x4` then gives other first numbers, and `sim 4x1` still 0. Look at the second number: it is 50
; each time. That the neighbour on the page races does no harm to a word that is ordered.
; Look at the line `raced 7`: on each cluster the report names word 7, whose accesses have no order, and no other word. With `lock 0` in
; front of the store behind `round:` and `unlock 0` behind the load of word 7, that line is gone, and the first number is 0.
; Of a load in a race little is promised: it gave the first value, or one that some store stored which the load is not before.
.words 8
.locks 1
me r1
addi r3 r1 1
li r2 50        ; how many rounds are left
round: st r3 r0 7       ; r0 is 0, so the address is 7
ld r6 r1 0      ; its own word
addi r6 r6 1
st r6 r1 0
ld r4 r0 7
beq r4 r3 mine
addi r5 r5 1    ; another's
mine: subi r2 r2 1
bne r2 r0 round
out r5
ld r6 r1 0
out r6
halt
