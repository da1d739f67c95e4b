package a

import c "context"

type stop c.CancelCauseFunc
