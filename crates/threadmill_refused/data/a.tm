template t
passes 1
window 0 true 1
case a
body all
emit addi x6, x5, 1
