package turn

import "round"
