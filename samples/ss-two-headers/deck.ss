p aux sp ss 1
p aux sp ss 1
s 1
