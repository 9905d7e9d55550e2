/* C11=forbidden */
/* exists o0_0=0 /\ o1_0=0 */
#include <stdatomic.h>

atomic_int x, y;
int o0_0, o1_0;

void P0(void)
{
  int e = 0; atomic_compare_exchange_strong_explicit(&x, &e, 1, memory_order_seq_cst, memory_order_seq_cst);
  o0_0 = atomic_load_explicit(&y, memory_order_seq_cst);
}

void P1(void)
{
  int e = 0; atomic_compare_exchange_strong_explicit(&y, &e, 1, memory_order_seq_cst, memory_order_seq_cst);
  o1_0 = atomic_load_explicit(&x, memory_order_seq_cst);
}
