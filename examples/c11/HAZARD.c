/* C11=forbidden */
/* exists o0_0=7 */
#include <stdatomic.h>

int obj = 1; int *_Atomic p = &obj; int *_Atomic hp;
int o0_0;

void P0(void)
{
  int *q = atomic_load_explicit(&p, memory_order_relaxed);
  atomic_store_explicit(&hp, q, memory_order_relaxed);
  atomic_thread_fence(memory_order_seq_cst);
  if (atomic_load_explicit(&p, memory_order_acquire)==q && q) o0_0 = *q; else o0_0 = 9;
}

void P1(void)
{
  int *q = atomic_exchange_explicit(&p, (int *)0, memory_order_acq_rel);
  atomic_thread_fence(memory_order_seq_cst);
  if (atomic_load_explicit(&hp, memory_order_acquire)!=q) *q = 7;
}
