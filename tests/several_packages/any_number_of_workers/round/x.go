package round

import "turn"
