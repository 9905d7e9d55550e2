/* C11=forbidden */
/* exists o0_0=7 /\ o1_0=7 */
#include <stdatomic.h>
#include <stddef.h>

atomic_size_t top, bottom = 1; atomic_int buf[2] = {7};
int o0_0, o1_0;

void P0(void)
{
  size_t b = atomic_load_explicit(&bottom, memory_order_relaxed)-1;
  atomic_store_explicit(&bottom, b, memory_order_relaxed);
  atomic_thread_fence(memory_order_seq_cst);
  size_t t = atomic_load_explicit(&top, memory_order_relaxed);
  if (t<=b) {
    int v = atomic_load_explicit(&buf[b&1], memory_order_relaxed);
    if (t==b) {
      if (!atomic_compare_exchange_strong_explicit(&top, &t, t+1, memory_order_seq_cst, memory_order_relaxed)) v = 0;
      atomic_store_explicit(&bottom, b+1, memory_order_relaxed);
    }
    o0_0 = v;
  } else { atomic_store_explicit(&bottom, b+1, memory_order_relaxed); o0_0 = 0; }
}

void P1(void)
{
  size_t t = atomic_load_explicit(&top, memory_order_acquire);
  atomic_thread_fence(memory_order_seq_cst);
  size_t b = atomic_load_explicit(&bottom, memory_order_acquire);
  int v = 0;
  if (t<b) {
    v = atomic_load_explicit(&buf[t&1], memory_order_relaxed);
    if (!atomic_compare_exchange_strong_explicit(&top, &t, t+1, memory_order_seq_cst, memory_order_relaxed)) v = 0;
  }
  o1_0 = v;
}
