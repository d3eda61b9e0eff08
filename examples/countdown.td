# A countdown in a loop: each record goes round, one lower each time, until it is 0. What each turn gives leaves the loop.
0 input
loop 10
1 enter 0
2 feedback 4
# the value less 1; those above 0 go round again
3 map 2 1 2
4 map 8 3
5 leave 3
end
6 output 5
--
0 7 3
0 8 1
.
