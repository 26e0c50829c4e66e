# Message passing: a hart stores data and then a flag, another one loads the flag and then the data.
#
# What it hunts: a stored dword that is lost, or that lands in another place or with other bytes, while two cores hand
# lines to each other; a load that answers late into a register which has another value by then; a fence that hangs.
# What the receiver sees isn't judged, since it races: x10 to x12 are unchecked. All that the senders store is checked,
# and so are the receivers' other registers and what they answer.
template message_passing
passes 8
window 0 true 4

case one_message
body hart 0
  emit sd x5, 64(x28)           # the data, in a line of its own
  emit sd x6, 72(x28)
  emit fence w, w
  emit sd x7, 0(x28)            # the flag
body hart 1
  emit sd x5, 128(x28)
  emit sd x6, 136(x28)
  emit fence w, w
  emit sd x7, 8(x28)            # the flag of the other pair is in the same line
body hart 2
  emit ld x10, 0(x28)
  emit fence r, r
  emit ld x11, 64(x28)
  emit ld x12, 72(x28)
body hart 3
  emit ld x10, 8(x28)
  emit fence r, r
  emit ld x11, 128(x28)
  emit ld x12, 136(x28)

case with_answers               # the receiver answers: first with what it saw, and then with what it knows
body hart 0
  mix 40 alu 1 load 0 store 0 branch 0
  emit sd x5, 64(x28)
  emit fence w, w
  emit sd x7, 0(x28)
  emit ld x10, 192(x28)         # the answer, which races
  mix 40 alu 1 load 0 store 0 branch 0
body hart 1
  emit sd x5, 128(x28)
  emit fence w, w
  emit sd x7, 8(x28)
  emit ld x10, 200(x28)
  mix 80 alu 1 load 0 store 0 branch 0
body hart 2
  emit ld x10, 0(x28)
  emit fence r, r
  emit ld x11, 64(x28)
  emit sd x11, 192(x28)         # unchecked so far
  emit sd x13, 192(x28)         # and checked from here on: this store must be the last one
body hart 3
  emit ld x10, 8(x28)
  emit fence r, r
  emit ld x11, 128(x28)
  emit sd x11, 200(x28)
  emit sd x13, 200(x28)
