package two

import "three"
