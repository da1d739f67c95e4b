package a

type T [P ([]int,)] int
