/* C11=forbidden */
/* exists o2_0=1 /\ o2_1=0 /\ o3_0=1 /\ o3_1=0 */
#include <stdatomic.h>

atomic_int x, y;
int o2_0, o2_1, o3_0, o3_1;

void P0(void) { atomic_store(&x, 1); }

void P1(void) { atomic_store(&y, 1); }

void P2(void)
{
  o2_0 = atomic_load(&x);
  o2_1 = atomic_load(&y);
}

void P3(void)
{
  o3_0 = atomic_load(&y);
  o3_1 = atomic_load(&x);
}
