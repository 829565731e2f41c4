# The negative of its input: each byte that is fed is put out with every bit inverted. It never ends: it stops for input, and
# where its output is full, and goes on when it is fed or drained.
# The pattern's parameters, then: address, bytes, label, instruction of the Signetics 2650.

.window  6
.input   4
.output  4
.start   0
.quantum 5

0000  70         next:   REDD,0          # stops here until there is input
0001  24 FF              EORI,0 $FF
0003  F0                 WRTD,0          # stops here while the output is full
0004  1B 7A              BCTR,3 next
