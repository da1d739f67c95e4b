package a

type T[P struct{ a 5 }, Q any] int
