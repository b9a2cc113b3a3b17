#define N 1
#include "x.h"
# 12
#line
# 1 "x
# 1 "" 2
# 1 "x" y
#line 4294967296
 #line 1
#12 "x"
routine f budget 1
RET
