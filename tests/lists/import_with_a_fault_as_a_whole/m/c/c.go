package c

import _ "x/b"
