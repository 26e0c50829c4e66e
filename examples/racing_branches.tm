# Branches on racing loads: which way a branch goes depends on what another hart has just stored.
#
# What it hunts: work of a wrong way that isn't taken back, in registers or in memory, and registers renamed wrongly at
# a branch that was guessed. What the two ways write isn't judged, since either may be taken. Behind the place where
# the ways meet each such register and byte is written again, and is checked from there on; all that no way writes is
# checked throughout.
template racing_branches
passes 8
window 0 true 1
window 2 own 4

case one_branch
body hart 0
  emit ld x6, 0(x28)            # races with the store of hart 1
  emit beq x6, x0, 20           # over the next four slots
  emit addi x8, x8, 1
  emit sd x8, 0(x30)
  emit add x9, x8, x7
  emit sd x9, 8(x30)
  emit addi x10, x5, 3          # the ways meet here; x10 is checked
  emit addi x8, x0, 8           # x8 and x9 are written again, and so are the two dwords
  emit addi x9, x0, 9
  emit sd x8, 0(x30)
  emit sd x9, 8(x30)
  emit ld x11, 0(x30)           # must be 8
body hart 1
  emit sd x0, 0(x28)
  emit sd x5, 0(x28)
  emit sd x0, 0(x28)
  emit sd x7, 0(x28)

case two_ways                   # a way for either outcome, each with stores of its own
body hart 0
  emit lbu x6, 0(x28)
  emit andi x6, x6, 1
  emit bne x6, x0, 16
  emit sd x5, 0(x30)
  emit addi x12, x0, 1
  emit jal x0, 12
  emit sd x7, 8(x30)
  emit addi x12, x0, 2
  emit sd x0, 0(x30)
  emit sd x0, 8(x30)
  emit addi x12, x0, 3
  emit ld x13, 0(x30)
  emit ld x14, 8(x30)
body hart 1
  emit sb x0, 0(x28)
  emit addi x5, x5, 1
  emit sb x5, 0(x28)
  emit addi x5, x5, 1
  emit sb x5, 0(x28)
  emit addi x5, x5, 1
  emit sb x5, 0(x28)

case drawn                      # drawn branches, and drawn loads and stores of the line that both harts want
body all
  mix 120 alu 3 load 2 store 2 branch 3
