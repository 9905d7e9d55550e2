/* C11=forbidden */
/* exists o2_0=1 /\ o2_1=0 /\ o3_0=1 /\ o3_1=0 */
#include <stdatomic.h>

atomic_int x, y;
int o2_0, o2_1, o3_0, o3_1;

void P0(void)
{
  atomic_store_explicit(&x, 1, memory_order_relaxed);
}

void P1(void)
{
  atomic_store_explicit(&y, 1, memory_order_relaxed);
}

void P2(void)
{
  o2_0 = atomic_load_explicit(&x, memory_order_relaxed);
  atomic_thread_fence(memory_order_seq_cst);
  o2_1 = atomic_load_explicit(&y, memory_order_relaxed);
}

void P3(void)
{
  o3_0 = atomic_load_explicit(&y, memory_order_relaxed);
  atomic_thread_fence(memory_order_seq_cst);
  o3_1 = atomic_load_explicit(&x, memory_order_relaxed);
}
