package above

import "low"
