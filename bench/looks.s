; Processor 0 goes round; the others wait for a flag that nobody sets: looks, and loads of the stop word behind them.
.words 4
.flags 1
me r1
beq r1 r0 loop
wait 0 1
loop: jmp loop
