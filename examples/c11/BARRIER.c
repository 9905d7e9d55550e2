/* C11=forbidden */
/* exists o0=0 \/ o1=0 */
#include <stdatomic.h>

atomic_int c; int a, b;
int o0, o1;

void P0(void)
{
  a = 1;
  atomic_fetch_add_explicit(&c, 1, memory_order_acq_rel);
  while (atomic_load_explicit(&c, memory_order_acquire) != 2) ;
  o0 = b;
}

void P1(void)
{
  b = 1;
  atomic_fetch_add_explicit(&c, 1, memory_order_acq_rel);
  while (atomic_load_explicit(&c, memory_order_acquire) != 2) ;
  o1 = a;
}
