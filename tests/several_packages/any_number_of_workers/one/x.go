package one

import "two"
