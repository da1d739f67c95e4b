package a

func f() { x = ~y }
