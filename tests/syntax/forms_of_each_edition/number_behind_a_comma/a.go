package a

type T[P any, Q 5] int
