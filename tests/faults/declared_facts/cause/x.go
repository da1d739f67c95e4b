package a

import "context"

type stop context.CancelCauseFunc
