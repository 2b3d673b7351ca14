; The greatest common divisor of 252 and 105, after Euclid.
; Look at the one line `out`, and at what decides how often the loop runs: `beq` compares with r0, which nothing
; writes and which so stays 0. With `jmp loop2` as the jump back and `loop2:` in front of `rem`, the loop never
; tests r2, the last `rem` divides by 0, and the processor is stopped there: `end 0 trapped 3 zero`.
.words 1
li r1 252
li r2 105
loop: beq r2 r0 done
rem r3 r1 r2
mov r1 r2
mov r2 r3
jmp loop
done: out r1
halt
