# A store storm: eight harts store to one line as fast as they can.
#
# What it hunts: store buffers that overflow, livelock and starvation (a hart that doesn't come to halt), a store that
# goes to a neighbour of the hot line or into a register. Which store to a byte of the hot line is the last one isn't
# judged. The other seven lines must keep their first bytes, and with no load no register depends on a race: all of
# them are checked.
template store_storm
passes 4
window 0 true 8

case storm
body all
  mix 256 alu 1 load 0 store 15 branch 0

case wide_storm                 # dwords alone, without a pause, over a whole line
body all
  emit sd x5, 0(x28)
  emit sd x6, 8(x28)
  emit sd x7, 16(x28)
  emit sd x8, 24(x28)
  emit sd x9, 32(x28)
  emit sd x10, 40(x28)
  emit sd x11, 48(x28)
  emit sd x12, 56(x28)
  emit sd x5, 56(x28)
  emit sd x6, 48(x28)
  emit sd x7, 40(x28)
  emit sd x8, 32(x28)
  emit sd x9, 24(x28)
  emit sd x10, 16(x28)
  emit sd x11, 8(x28)
  emit sd x12, 0(x28)

case fenced_storm               # each burst has to be drained
body all
  mix 40 alu 0 load 0 store 1 branch 0
  emit fence rw, rw
  mix 40 alu 0 load 0 store 1 branch 0
  emit fence w, w
  mix 40 alu 0 load 0 store 1 branch 0
  emit fence rw, rw
  mix 40 alu 1 load 0 store 1 branch 0
