/* What libcfdp_c.a asks for beside memory: the error of the calling thread's last call of the C
 * library, for the stations that cfdp_open_folders opens. */
#include "cfdp_hooks.h"

#include <errno.h>

#ifdef __cplusplus
extern "C" {
#endif

int32_t rattle_errno(void)
{
    return errno;
}

void rattle_set_errno(int32_t error)
{
    errno = error;
}

#ifdef __cplusplus
}
#endif
