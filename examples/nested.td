# A loop in a loop: a key's values are summed in each turn of the inner one, and what leaves it goes round the outer one.
0 input
loop 2
1 enter 0
2 feedback 7
3 map 1 1 2
loop 2
4 enter 3
5 feedback 6
6 group 21 4 5
7 leave 6
end
8 leave 7
end
9 output 8
--
0 7 5
0 7 -2
0 8 1
.
