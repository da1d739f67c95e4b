package a

import "context"

var maker = context.WithDeadlineCause
