package a

type T[P [a:b]int] int
