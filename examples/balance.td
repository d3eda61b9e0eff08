# A running total for each key, kept from epoch to epoch. A key is told in the epochs in which it has a record.
0 input
1 fold 40 0
2 output 1
--
0 7 5
0 8 1
.
0 7 -2
.
# an epoch without records changes nothing
.
0 8 9
.
