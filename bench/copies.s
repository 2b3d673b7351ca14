; Each processor stores to a word of its own in one page, and meets the others: on several nodes nearly all events are those of copying:
; twins made, flushed and dropped, pages fetched, notices drained.
.words 256
.barriers 1
me r1
loop: addi r2 r2 1
st r2 r1 0
bar 0
jmp loop
