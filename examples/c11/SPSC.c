/* C11=forbidden */
/* exists o1_0=1 */
#include <stdatomic.h>

atomic_uint head, tail; int buf[2];
int o1_0;

void P0(void)
{
  unsigned t = atomic_load_explicit(&tail, memory_order_relaxed);
  if (t-atomic_load_explicit(&head, memory_order_acquire)<2) { buf[t&1] = 5; atomic_store_explicit(&tail, t+1, memory_order_release); }
}

void P1(void)
{
  unsigned h = atomic_load_explicit(&head, memory_order_relaxed);
  if (h!=atomic_load_explicit(&tail, memory_order_acquire)) { o1_0 = buf[h&1]+1; atomic_store_explicit(&head, h+1, memory_order_release); }
}
