package a

import "context"

type Stop = context.CancelFunc
