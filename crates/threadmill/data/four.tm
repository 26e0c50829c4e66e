template four
passes 4
window 0 true 4
window 1 false 4
window 2 own 8
case race                       # two harts store to one dword, all load it
body hart 0
emit sd x5, 0(x28)
emit ld x6, 0(x28)
body hart 1
emit sd x5, 0(x28)
emit ld x6, 0(x28)
body core 1
emit ld x6, 0(x28)
emit xor x7, x6, x6
case drawn                      # a hundred slots for each hart, drawn from the seed
body all
mix 100 alu 4 load 3 store 3 branch 1
