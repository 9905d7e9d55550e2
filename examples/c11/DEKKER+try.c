/* C11=forbidden */
/* exists o0_0=1 /\ o1_0=1 /\ d=1 */
#include <stdatomic.h>

atomic_int f0, f1; int d;
int o0_0, o1_0;

void P0(void)
{
  atomic_store_explicit(&f0, 1, memory_order_seq_cst);
  if (atomic_load_explicit(&f1, memory_order_seq_cst)==0) { d = d+1; o0_0 = 1; }
  atomic_store_explicit(&f0, 0, memory_order_release);
}

void P1(void)
{
  atomic_store_explicit(&f1, 1, memory_order_seq_cst);
  if (atomic_load_explicit(&f0, memory_order_seq_cst)==0) { d = d+1; o1_0 = 1; }
  atomic_store_explicit(&f1, 0, memory_order_release);
}
