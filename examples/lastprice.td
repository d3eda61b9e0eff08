# Orders, joined with the last known price of their article. Three inputs: (article, number of an order), (article, pieces that
# were ordered), and (article, price of a piece in cents). A price holds from its epoch on, until the next one.
0 input
1 input
2 input
# (order, price): an order with the price of its article; this one answers the first eight orders of an article and an epoch,
3 fold 9210 0 2
# and this one those from the ninth to the sixteenth
4 fold 9211 0 2
# (article, pieces of this epoch * price)
5 fold 9207 1 2
6 output 3 4
7 output 5
--
# prices, and no orders yet
2 7 250
2 8 99
.
# orders of both articles; article 9 has no price: its order has no line, now or later
0 7 1001
1 7 3
0 7 1002
1 7 1
0 8 1003
1 8 20
0 9 1004
1 9 2
.
# a price of article 9, and a new one of article 7 together with an order, for which it holds
2 9 1200
2 7 275
0 7 1005
1 7 2
.
# ten orders of one article, and an order of article 9, whose price is known now
0 8 1006
1 8 1
0 8 1007
1 8 2
0 8 1008
1 8 3
0 8 1009
1 8 1
0 8 1010
1 8 2
0 8 1011
1 8 3
0 8 1012
1 8 1
0 8 1013
1 8 2
0 8 1014
1 8 3
0 8 1015
1 8 1
0 9 1016
1 9 1
.
# two prices in one epoch: the items of an epoch stand in the order of their values, so that the greater is the last
2 8 105
2 8 101
0 8 1017
1 8 4
.
