ab
#