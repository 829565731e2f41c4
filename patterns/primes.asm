# The primes below 256, by the sieve of Eratosthenes: each is put out as one byte.
# The pattern's parameters, then: address, bytes, label, instruction of the Signetics 2650.

.window  512
.input   1
.output  64
.start   0
.quantum 16

0000  05 01              LODI,1 1        # R1: the number before the first candidate
0002  D9 01      next:   BIRR,1 test     # the next candidate, up to 255
0004  40                 HALT            # 256 is 0 again: all are printed
0005  0D 61 00   test:   LODA,0 flags,1  # is it crossed out?
0008  98 78              BCFR,0 next
000A  F1                 WRTD,1          # no: a prime
000B  01                 LODZ,1          # R0, R2: its multiples
000C  81         cross:  ADDZ,1          # the next multiple
000D  C2                 STRZ,2
000E  B5 01              TPSL $01        # C: past 255
0010  18 70              BCTR,0 next
0012  CE 61 00           STRA,0 flags,2  # crossed out: R0 is not zero
0015  1B 75              BCTR,3 cross

# One byte for each number below 256, not zero once the number is crossed out: the second half of the window, zero at first.
# flags: 0100 to 01FF
