package a

type T[P any, Q] int
