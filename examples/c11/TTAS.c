/* C11=forbidden */
/* exists d=1 */
#include <stdatomic.h>

atomic_flag f = ATOMIC_FLAG_INIT; atomic_int l; int d;

static inline void with_lock(void)
{
  while (1) {
    while (atomic_load_explicit(&l, memory_order_relaxed)) __builtin_ia32_pause();
    if (!atomic_exchange_explicit(&l, 1, memory_order_acquire)) break;
  }
  d = d+1;
  atomic_store_explicit(&l, 0, memory_order_release);
}

void P0(void) { with_lock(); }

void P1(void) { with_lock(); }
