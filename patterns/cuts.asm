# Where the cuts lie along a strip of eight panes: each pane takes 20, and its lead allowance. The places are kept in a list, and
# each is put out as one byte. All of the window before the list is locked, the lead allowances and the code: a store there would
# stop with status 8.
# The pattern's parameters, then: address, bytes, label, instruction of the Signetics 2650.

.window  40
.input   1
.output  8
.start   8
.quantum 16
.locked  32

0000  03 03 05 03 leads: DB 3,3,5,3      # the lead allowances, read and never written
0004  03 05 03 03        DB 3,5,3,3
0008  05 00              LODI,1 0        # R1: the pane
000A  06 00              LODI,2 0        # R2: where the last cut lies
000C  02         next:   LODZ,2
000D  84 14              ADDI,0 20
000F  8D 60 00           ADDA,0 leads,1
0012  C2                 STRZ,2
0013  CD 60 20           STRA,0 list,1   # the list is the first that is not locked
0016  F0                 WRTD,0
0017  85 01              ADDI,1 1
0019  E5 08              COMI,1 8
001B  98 6F              BCFR,0 next
001D  40                 HALT

# list: 0020 to 0027, zero at first
