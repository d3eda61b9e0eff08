# Who reaches which of four stations on a ring, in at most two steps? A record is a station (its key) and a traveller (its
# value); in each turn of the loop everybody goes one station on (code 9). For each station: how many were there.
0 input
loop 3
1 enter 0
2 feedback 4
3 distinct 1 2
4 map 9 3
5 leave 3
end
6 group 20 5
7 output 6
--
# traveller 1 starts at station 0 (and is named twice), traveller 2 at station 3
0 0 1
0 0 1
0 3 2
.
