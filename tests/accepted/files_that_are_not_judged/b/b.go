package b

import . "context" //ctxvet:accept LC02 known

func f() {} //ctxvet:accept LC05 none
