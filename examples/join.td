# A join of two inputs within an epoch: for each article that both name, its least price (input 0) and its least fee (input 1) together.
0 input
1 input
2 group 24 0 1
3 output 2
--
0 7 50
0 7 40
1 7 5
0 8 10
1 9 3
.
