# A full store queue: two right claims a call for stores.s. Each line is a call; this one hands over none.
0 2002023 0 0 20 0 4 0 ; 4 2002223 0 0 24 0 8 0
8 5d00893 0 0 0 5d c 0 ; c 73 5d 0 0 0 c 100
