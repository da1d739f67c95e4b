//go:build go1.20

package ctxvet

// The field is there since version 0.7.0 of golang.org/x/tools, and Go 1.19 is used with older ones too.
func init() { Analyzer.URL = Page }
