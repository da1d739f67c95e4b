module example.org/ctxvet/adapters/go

go 1.19

require golang.org/x/tools v0.7.0
