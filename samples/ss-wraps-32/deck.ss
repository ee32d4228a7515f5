p aux sp ss 1
s 4294967297
