a
#