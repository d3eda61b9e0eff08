# For each key the least and the greatest of its values, at two outputs.
0 input
1 group 22 0
2 group 23 0
3 output 1
4 output 2
--
0 3 -5
0 3 12
0 8 1
.
