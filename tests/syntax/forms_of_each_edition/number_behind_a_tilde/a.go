package a

type T[P *C|~5] int
