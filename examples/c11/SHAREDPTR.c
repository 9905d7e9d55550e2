/* C11=forbidden */
/* exists o=1 \/ o=2 */
#include <stdatomic.h>

struct { atomic_int count; int a, b; } s = { 2, 0, 0 };
int o;

static inline void drop(void)
{
  if (atomic_fetch_sub_explicit(&s.count, 1, memory_order_release) == 1) {
    atomic_thread_fence(memory_order_acquire);
    o = s.a + 2*s.b;
  }
}

void P0(void) { s.a = 1; drop(); }

void P1(void) { s.b = 1; drop(); }
