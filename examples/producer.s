; Processor 0 produces 3 values and sets flag 0 after each; the others wait for each value, and print it. Run it with `sim 1x3` and
; `sim 3x1`.
; Look at `waitr 0 r3`: it waits until the flag was set r3 times, so the value of that number is there when it is loaded, also on
; another node: `set` sends the value home and tells the others, and behind `waitr` a node that was told gets the page anew. With
; `wait 0 1` in its place the consumers wait for the first value alone, and print 0 for those that come later; the report then has
; the lines `raced 1` and `raced 2`.
.words 4
.flags 1
me r1
li r2 0         ; the address of the next value
li r3 1         ; its number, from 1
li r4 3
beq r1 r0 produce
consume: waitr 0 r3
ld r5 r2 0
out r5
addi r2 r2 1
addi r3 r3 1
bge r4 r3 consume
halt
produce: li r6 20
work: subi r6 r6 1
bne r6 r0 work  ; it takes its time
muli r5 r3 10
st r5 r2 0
set 0
addi r2 r2 1
addi r3 r3 1
bge r4 r3 produce
halt
