// The function stands on one line.
package a

import "context"

func f(p context.Context) { ctx, _ := context.WithCancel(p); use(ctx) }

func use(ctx context.Context) {}
