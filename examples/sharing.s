; Each processor counts to 100 in a word of its own, with no lock; all these words stand on one page (false sharing). Behind the
; barrier each prints the word of its right neighbour. Run it with `sim 1x4`, `sim 2x2` and `sim 4x1`; there is room for 8.
; Look at the lines `out`, each of which is 100, and at `page`: no count is lost, though on several nodes each has a copy of the page
; and all store to their copies at the same time. A release sends home the words alone that the node wrote. Were the whole page
; sent, the last node to send would write its old copies of the other words over the counts that are there.
; Each word is ordered: before the barrier it is one processor's, and behind it nobody stores.
.words 8
.barriers 1
me r1
li r2 100       ; how often it still counts
loop: ld r3 r1 0
addi r3 r3 1
st r3 r1 0
subi r2 r2 1
bne r2 r0 loop
bar 0           ; all have counted
procs r4
addi r5 r1 1
rem r5 r5 r4    ; the right neighbour, in a ring
ld r6 r5 0
out r6
halt
