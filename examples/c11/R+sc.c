/* C11=forbidden */
/* exists y=2 /\ o1_0=0 */
#include <stdatomic.h>

atomic_int x, y;
int o1_0;

void P0(void)
{
  atomic_store_explicit(&x, 1, memory_order_seq_cst);
  atomic_store_explicit(&y, 1, memory_order_seq_cst);
}

void P1(void)
{
  atomic_store_explicit(&y, 2, memory_order_seq_cst);
  o1_0 = atomic_load_explicit(&x, memory_order_seq_cst);
}
