package over

import "round"
