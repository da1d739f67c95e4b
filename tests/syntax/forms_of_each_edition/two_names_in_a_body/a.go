package a

type T[P *func() { x y }, Q any] int
