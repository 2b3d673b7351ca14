; the program that gen makes of seed 1
.pages 256
.words 9
.locks 1
.barriers 1
me r1
procs r2
li r3 1150
li r14 0
li r15 3
li r11 10451216379200822465
mov r4 r1
fill: bge r4 r3 filled
addi r5 r4 1
mul r5 r5 r11
st r5 r4 0
add r4 r4 r2
jmp fill
filled: bar 0
round: li r11 13757245211066428519
mov r4 r1
up: bge r4 r3 upped
ld r5 r4 0
mul r5 r5 r11
addi r6 r4 1075
rem r6 r6 r3
ld r7 r6 0
add r5 r5 r7
st r5 r4 1152
add r4 r4 r2
jmp up
upped: bar 0
li r11 8196980753821780235
mov r4 r1
down: bge r4 r3 downed
ld r5 r4 1152
mul r5 r5 r11
addi r6 r4 1078
rem r6 r6 r3
ld r7 r6 1152
xor r5 r5 r7
st r5 r4 0
add r4 r4 r2
jmp down
downed: bar 0
subi r15 r15 1
bne r15 r14 round
li r8 0
mov r4 r1
own: bge r4 r3 summed
ld r5 r4 0
add r8 r8 r5
add r4 r4 r2
jmp own
summed: lock 0
ld r5 r14 2303
add r5 r5 r8
st r5 r14 2303
unlock 0
bar 0
bne r1 r14 end
ld r5 r14 2303
out r5
end: halt
