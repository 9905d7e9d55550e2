/* C11=forbidden */
/* exists o1_0=1 /\ o1_1=0 /\ o2_0=0 */
#include <stdatomic.h>

atomic_int x, y;
int o1_0, o1_1, o2_0;

void P0(void)
{
  atomic_store_explicit(&x, 1, memory_order_seq_cst);
}

void P1(void)
{
  o1_0 = atomic_load_explicit(&x, memory_order_seq_cst);
  o1_1 = atomic_load_explicit(&y, memory_order_seq_cst);
}

void P2(void)
{
  atomic_store_explicit(&y, 1, memory_order_seq_cst);
  o2_0 = atomic_load_explicit(&x, memory_order_seq_cst);
}
