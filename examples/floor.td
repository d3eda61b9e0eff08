# A stock that cannot go below 0. Input 0 has deliveries, (article, pieces), input 1 what is asked for, (article, pieces): where it is
# more than there is, all that is there goes out, and the rest of it is not owed.
0 input
1 input
# what is asked for goes off: the pieces with a minus
2 map 9001 1
# the stock after the deliveries (port 0) and then what goes out (port 1), never below 0
3 fold 9206 0 2
4 output 3
--
# article 7: 10 come and 3 go; article 8: 5 come
0 7 10
1 7 3
0 8 5
.
# article 7: 4 and 9 are asked for, and 7 are there: all go out, and the stock is 0; article 9 was never delivered
1 7 4
1 7 9
1 8 2
1 9 1
.
# what was not there is not owed: a delivery of 6 makes 6
0 7 6
0 8 1
0 8 1
.
1 8 5
0 9 2
1 9 2
.
