a "b\
"