#include <stdio.h>

int main(void)
{
#ifdef __ACME_TRACE__
    puts("traced");
#endif
    printf("ACME %d\n", __ACME__);
    return 0;
}
