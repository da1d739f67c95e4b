package tested // want package:`"yes":`

func Name() string { return "tested" }
