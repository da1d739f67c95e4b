package b

import "c"
