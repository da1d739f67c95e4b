package c

func 1() {} //ctxvet:accept LC02 known
