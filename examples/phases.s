; Two phases with a barrier between: each processor stores its square to the word of its number, and behind the barrier it prints
; the word of its right neighbour. Run it with `sim 1x4` and `sim 4x1`.
; Look at the lines `out`: processor 0 prints 1, the square of 1, and processor 3 prints 0, the square of 0. Take `bar 0` away: under
; `sim 1x4` all print the same as before, by the luck of this schedule, and under `sim 4x1` all print 0, since no node hears of what
; another stored. Without the barrier the loads race: on both clusters the report has the lines `raced 0` to `raced 3`, whatever was
; printed.
.words 8
.barriers 1
me r1
mov r3 r1
sum: beq r3 r0 done
add r2 r2 r1    ; the square as a sum: r1 times r1
subi r3 r3 1
jmp sum
done: st r2 r1 0
bar 0
procs r3
addi r4 r1 1
rem r4 r4 r3    ; the right neighbour, in a ring
ld r5 r4 0
out r5
halt
