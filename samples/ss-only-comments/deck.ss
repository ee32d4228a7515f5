c
c x
