p sp 3 2
s 1
