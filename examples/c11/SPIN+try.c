/* C11=forbidden */
/* exists o0_0=1 /\ o1_0=1 /\ d=1 */
#include <stdatomic.h>

atomic_int l; int d;
int o0_0, o1_0;

void P0(void)
{
  if (atomic_exchange_explicit(&l, 1, memory_order_acquire)==0) {
    d = d+1;
    atomic_store_explicit(&l, 0, memory_order_release);
    o0_0 = 1; }
}

void P1(void)
{
  if (atomic_exchange_explicit(&l, 1, memory_order_acquire)==0) {
    d = d+1;
    atomic_store_explicit(&l, 0, memory_order_release);
    o1_0 = 1; }
}
