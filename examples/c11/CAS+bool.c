/* C11=forbidden */
/* exists o0_0=1 /\ o1_0=1 */
#include <stdatomic.h>

atomic_int x;
int o0_0, o1_0;

void P0(void)
{
  int e = 0;
  o0_0 = atomic_compare_exchange_strong_explicit(&x, &e, 1, memory_order_seq_cst, memory_order_relaxed);
}

void P1(void)
{
  int e = 0;
  o1_0 = atomic_compare_exchange_strong_explicit(&x, &e, 2, memory_order_seq_cst, memory_order_relaxed);
}
