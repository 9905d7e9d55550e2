/* C11=forbidden */
/* exists o0_0=0 /\ o1_0=0 */
#include <stdatomic.h>

atomic_uint x;
int o0_0, o1_0;

void P0(void)
{
  o0_0 = (atomic_fetch_or_explicit(&x, 4u, memory_order_acq_rel)&4u)!=0;
}

void P1(void)
{
  o1_0 = (atomic_fetch_or_explicit(&x, 4u, memory_order_acq_rel)&4u)!=0;
}
