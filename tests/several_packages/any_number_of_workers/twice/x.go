package twice

import (
	"bad"
	b "bad"
)
