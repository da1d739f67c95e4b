package a

type T[P *[]int|5 x] int
