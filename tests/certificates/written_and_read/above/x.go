package a

import "missed"
