# How many records each key has, epoch by epoch.
0 input
1 group 20 0
2 output 1
--
0 7 1
0 7 1
0 9 0
.
# an epoch without records has no lines
.
0 9 4
.
