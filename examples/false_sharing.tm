# False sharing: each hart stores to its own bytes of a line that all harts want.
#
# What it hunts: stores that are lost when a line changes hands, byte enables and merges in a store buffer, a partial
# line that is written back over another hart's bytes. No byte has two writers, so all of memory is checked. A load
# of a hart's own bytes races with nobody and is checked as well; a load of another hart's part isn't.
template false_sharing
passes 6
window 1 false 4

case own_parts                  # narrow and wide stores to one line, and what was stored is loaded again
body hart 0
  emit sb x5, 0(x29)
  emit sh x6, 2(x29)
  emit sw x7, 4(x29)
  emit sd x8, 8(x29)
  emit ld x10, 0(x29)
  emit ld x11, 8(x29)
  emit sb x9, 15(x29)
  emit lbu x12, 15(x29)
body hart 1
  emit sb x5, 16(x29)
  emit sh x6, 18(x29)
  emit sw x7, 20(x29)
  emit sd x8, 24(x29)
  emit ld x10, 16(x29)
  emit ld x11, 24(x29)
  emit sb x9, 31(x29)
  emit lbu x12, 31(x29)
body hart 2
  emit sb x5, 32(x29)
  emit sh x6, 34(x29)
  emit sw x7, 36(x29)
  emit sd x8, 40(x29)
  emit ld x10, 32(x29)
  emit ld x11, 40(x29)
  emit sb x9, 47(x29)
  emit lbu x12, 47(x29)
body hart 3
  emit sb x5, 48(x29)
  emit sh x6, 50(x29)
  emit sw x7, 52(x29)
  emit sd x8, 56(x29)
  emit ld x10, 48(x29)
  emit ld x11, 56(x29)
  emit sb x9, 63(x29)
  emit lbu x12, 63(x29)

case drawn_stores               # stores of all widths, and nothing else that could race
body all
  mix 200 alu 1 load 0 store 3 branch 0

case drawn_mix                  # loads of the other parts come in between
body all
  mix 200 alu 3 load 2 store 5 branch 0
