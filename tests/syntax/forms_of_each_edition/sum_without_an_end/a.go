package a

type T[P *(5+), Q any] int
