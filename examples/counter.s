; Each processor adds 1 to word 0 a hundred times; processor 0 prints the sum. Run it with `sim 1x4`, `sim 2x2` and `sim 4x1`.
; Look at the line `out 0 400`: no addition is lost, since each load and store of word 0 stands between `lock 0` and `unlock 0`. On
; several nodes the page goes with the lock: `unlock` sends what was stored home and tells the other nodes, and behind `lock` a
; node that was told gets the page anew.
; Take these two words away, `lock 0` behind its label and the line `unlock 0`: under `sim 1x4` processor 0 prints 152, under
; `sim 2x2` 102, and under `sim 4x1` 100, where each node counts in a copy of its own; and each report has the line `raced 0`. Take
; only the line `unlock 0` away: all wait for a lock that nobody gives back, and with `looks=100` they end as `looked`, or as
; `stopped by` one that did.
.words 4
.locks 1
.barriers 1
li r1 100       ; how often it still adds
li r2 0         ; the address
loop: lock 0
ld r3 r2 0
addi r3 r3 1
st r3 r2 0
unlock 0
subi r1 r1 1
bne r1 r2 loop
bar 0           ; all have added
me r4
bne r4 r2 end
ld r3 r2 0
out r3
end: halt
