; A rod of 32 cells, hot at its left end: in each step a cell becomes the mean of its two neighbours. The cells stand in two arrays,
; each on two pages; a step reads the one and writes the other, and behind a barrier they change places. Run it with `sim 1x1`,
; `sim 1x4`, `sim 2x2` and `sim 4x1`.
; Look at the line `out`, the sum of all cells behind 8 steps: 2824215 on each cluster. Each processor has every P-th cell, so on
; several nodes all of them write each page, and read what others wrote in the step before.
; Take `bar 0` behind `next:` away: under `sim 1x4` the sum happens to stay, under `sim 2x2` and `sim 4x1` it is another one. The
; program races then, and on each of these clusters the report has lines `raced`, also where the sum is right.
.pages 4
.words 16
.barriers 1
.init 0 1000000     ; cell 0 in both arrays: the hot end, which stays
.init 32 1000000
me r1
procs r2
li r3 0             ; the array that is read
li r4 32            ; the array that is written
li r5 8             ; how many steps are left
li r6 31            ; the last cell, which stays 0
step: addi r7 r1 1  ; the first of its cells
cell: bge r7 r6 next
add r8 r7 r3
subi r9 r8 1
ld r10 r9 0         ; the left neighbour
ld r11 r8 1         ; the right one
add r10 r10 r11
li r12 1
shr r10 r10 r12
add r8 r7 r4
st r10 r8 0
add r7 r7 r2
jmp cell
next: bar 0
mov r8 r3
mov r3 r4
mov r4 r8
subi r5 r5 1
bne r5 r0 step
bne r1 r0 end
li r12 0            ; processor 0 adds all cells
li r7 0
sum: add r8 r7 r3
ld r10 r8 0
add r12 r12 r10
addi r7 r7 1
bge r6 r7 sum
out r12
end: halt
