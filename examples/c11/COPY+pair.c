/* C11=forbidden */
/* exists o1=1 /\ o2=0 */
#include <stdatomic.h>

struct pair { int a, b; } p, q; atomic_int f;
int o1, o2;

void P0(void)
{
  p.a = 1;
  p.b = 1;
  atomic_store_explicit(&f, 1, memory_order_release);
}

void P1(void)
{
  if (atomic_load_explicit(&f, memory_order_acquire)) {
    q = p;
    o1 = q.a;
    o2 = q.b;
  }
}
