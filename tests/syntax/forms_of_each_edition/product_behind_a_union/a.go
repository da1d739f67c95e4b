package a

type T [P *[]int | a * b] int
