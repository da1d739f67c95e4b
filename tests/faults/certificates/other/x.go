package a

import "example.org/context"

type stop context.CancelCauseFunc

type CancelCauseFunc int
