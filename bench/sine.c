/* links: erlensieg */
#include "frame.h"
#include "baseline/sine.c"

ROW(sine, int64_t, (uint32_t a), ((uint32_t)any()), fringe_sine, base_sine)
ROW(cosine, int64_t, (uint32_t a), ((uint32_t)any()), fringe_cosine, base_cosine)

MAIN({"sine", row_sine}, {"cosine", row_cosine})
