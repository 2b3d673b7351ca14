; Stores 7 to word 2, loads it again and prints it.
; Look at the lines `out` and `page` of the report.
.words 4
li r1 7         ; the value
li r2 2         ; the address
st r1 r2 0
ld r3 r2 0      ; with `ld r3 r2 2` the processor would stop here: there is no word 4
out r3
halt
