# Own lines: harts run beside each other, and no two of them touch the same line.
#
# What it hunts: faults that need load and not sharing: loads that overtake stores of the same hart, forwarding from a
# store buffer with another width or place, refills and write-backs of neighbouring lines, two threads of a core that
# get each other's results. Nothing races, so every register and every byte is checked. It is the example to begin
# with: a report here needs no thought about races.
template own_lines
passes 4
window 0 own 32
window 1 own 16
window 2 own 4

case forwarding                 # stores, and loads of other widths of the same bytes; hart h has line h
body hart 0
  emit sd x5, 0(x28)
  emit lw x10, 4(x28)
  emit sb x6, 3(x28)
  emit ld x11, 0(x28)
  emit sh x7, 6(x28)
  emit lwu x12, 4(x28)
body hart 1
  emit sd x5, 64(x28)
  emit lw x10, 68(x28)
  emit sb x6, 67(x28)
  emit ld x11, 64(x28)
  emit sh x7, 70(x28)
  emit lwu x12, 68(x28)
body hart 2
  emit sd x5, 128(x28)
  emit lw x10, 132(x28)
  emit sb x6, 131(x28)
  emit ld x11, 128(x28)
  emit sh x7, 134(x28)
  emit lwu x12, 132(x28)
body hart 3
  emit sd x5, 192(x28)
  emit lw x10, 196(x28)
  emit sb x6, 195(x28)
  emit ld x11, 192(x28)
  emit sh x7, 198(x28)
  emit lwu x12, 196(x28)

case spread
body all
  mix 250 alu 2 load 4 store 4 branch 0

case with_branches
body all
  mix 250 alu 3 load 3 store 3 branch 2
