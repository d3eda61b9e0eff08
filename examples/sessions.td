# How many visits has each visitor made so far? A record is a click: the visitor (its key) and the minute (its value). A click more
# than 30 minutes after the one before begins a new visit; so does the first.
0 input
1 fold 9330 0
2 output 1
--
# hour 1
0 1 2
0 3 11
0 3 16
0 3 21
0 3 26
0 2 40
0 1 47
0 2 47
0 3 51
0 3 56
.
# hour 2
0 3 66
0 2 76
0 3 76
0 3 81
0 3 86
0 3 106
0 1 117
.
# hour 3
0 2 121
0 3 126
0 4 130
0 3 136
0 3 141
0 1 146
0 2 151
0 2 158
0 3 161
0 2 176
.
# hour 4
0 3 186
0 1 191
0 3 196
0 4 200
0 1 203
0 3 206
0 2 207
0 2 219
0 4 229
0 3 231
0 1 234
0 4 236
.
