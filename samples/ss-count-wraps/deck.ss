p aux sp ss 4294967297
s 1
