# Which minute has had the most requests so far, and how many? A record is a request: the second of the day (its key) and its status.
0 input
# the second / 60: the minute
1 map 2060 0
# how many requests each minute has had so far
2 fold 9203 1
# (minute, count * 1,000,000 + minute): the count and the minute in one value, so that the greater count has the greater value
3 map 9003 2
# all of them under one key
4 map 1000 3
# the greatest so far
5 fold 9200 4
# taken apart again: (minute, count)
6 map 9004 5
7 output 6
--
# batch 1
0 36017 500
0 36027 200
0 36032 200
0 36035 200
0 36035 404
0 36044 200
0 36044 404
0 36048 200
0 36053 500
0 36055 500
0 36060 404
0 36064 500
0 36073 200
0 36079 200
.
# batch 2
0 36100 500
0 36100 500
0 36106 500
0 36120 404
0 36122 200
0 36126 404
0 36130 500
0 36135 200
0 36138 200
0 36139 200
0 36142 200
0 36151 500
0 36151 500
0 36152 500
0 36154 200
0 36154 404
0 36156 200
0 36156 404
.
# batch 3
0 36162 500
0 36183 404
0 36194 200
0 36195 404
0 36199 500
0 36203 404
0 36205 200
0 36205 500
0 36207 404
0 36208 404
0 36215 200
0 36219 200
.
# batch 4; two requests come late, of a minute before
0 36125 200
0 36130 200
0 36256 200
0 36259 404
0 36268 200
0 36270 404
0 36280 500
0 36282 200
0 36292 200
0 36293 200
0 36299 500
.
