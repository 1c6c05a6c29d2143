/*@ prelude */
#include <stdio.h>
static int32_t value = 1000;
/*@ end */
/*@ kernel make_Value */
  v[0] = value;
/*@ end */
/*@ kernel k_Work */
  value++;
/*@ end */
