a "b
"