# Of two inputs: the sum of the even values by half the key, and the other input's records as they are.
0 input
1 input
2 map 3 0
3 map 5 2
4 group 21 3
5 output 4
6 output 1
--
0 10 4
0 11 6
0 11 7
1 1 -1
.
