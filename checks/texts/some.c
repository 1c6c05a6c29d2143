/* pabble 1 */
/* protocol P */
/* N 2 to 9 */
/* role M 0 to 0 */
/* role W 1 to N - 1 */
/* label A () */
/* label B uint32[3] */
/* label C uint32[3] */
#include <mpi.h>
#include <stdint.h>
static int32_t is[1024], ir[1024];
static uint32_t us[1024], ur[1024];
/*@ prelude */
// a brace {
/*@ end */
static int32_t r_M(int32_t N, int32_t x)
{
  return x + 0 * N + 0;
}
static int32_t r_W(int32_t N, int32_t x)
{
  return x + 0 * N + 0;
}
static void make_B(int32_t N, int32_t role, int32_t index, uint32_t *v)
{
/*@ kernel make_B */
/*@ end */
}
static void take_B(int32_t N, int32_t role, int32_t index, const uint32_t *v)
{
/*@ kernel take_B */
/*@ end */
}
static void make_C(int32_t N, int32_t role, int32_t index, uint32_t *v)
{
/*@ kernel make_C */
/*@ end */
}
static void take_C(int32_t N, int32_t role, int32_t index, const uint32_t *v)
{
/*@ kernel take_C */
/*@ end */
}
static int32_t c_K(int32_t N, int32_t role, int32_t index)
{
/*@ kernel c_K */
  return 0;
/*@ end */
}
int main(int argc, char **argv)
{
  int size, rank;
  int32_t N, R, I, a, i;
  MPI_Status st;
  MPI_Init(&argc, &argv);
  MPI_Comm_size(MPI_COMM_WORLD, &size);
  MPI_Comm_rank(MPI_COMM_WORLD, &rank);
  N = (size - 0) / 1;
  R = 0;
  I = 0;
  a = 0;
  i = 0;
  if (N < 2 || N > 9 || 1 * N + 0 != size) {
    MPI_Abort(MPI_COMM_WORLD, 2);
  }
  if (rank >= 0 * N + 0) {
    R = 0;
    I = rank - (0 * N + 0);
  }
  if (rank >= 0 * N + 1) {
    R = 1;
    I = rank - (0 * N + 0);
  }
  if (R == 0 && I == 0) {
    MPI_Send(us, 0, MPI_UINT32_T, r_W(N, N - 1), 0, MPI_COMM_WORLD);
  } else {
    L0: {
      if (R == 1 && I >= 1 && I <= N - 1) {
        goto L0;
      }
    }
  }
  make_C(N, R, I, us);
  MPI_Allreduce(us, ur, 3, MPI_UINT32_T, MPI_SUM, MPI_COMM_WORLD);
  take_C(N, R, I, ur);
  if (R == 0 && I == 0) {
    a = c_K(N, R, I);
  } else {
    MPI_Probe(r_M(N, 0), MPI_ANY_TAG, MPI_COMM_WORLD, &st);
    if (st.MPI_TAG == 0 && (R == 1 && I >= 1 && I <= N - 1)) {
      a = 0;
    } else {
      MPI_Abort(MPI_COMM_WORLD, 3);
    }
  }
  if (a == 0) {
    for (i = 1; i <= N - 1; i++) {
      MPI_Send(us, 0, MPI_UINT32_T, r_W(N, i), 0, MPI_COMM_WORLD);
    }
  } else {
  }
  MPI_Finalize();
  return 0;
}
