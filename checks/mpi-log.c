/* Logs each rank's MPI calls, one line each, to the file LOG.RANK, where LOG is in the environment. Linked before the MPI library. */
#include <mpi.h>
#include <stdint.h>
#include <stdio.h>
#include <stdlib.h>

static FILE *out;
static int rank;
static uint64_t state, increment;

/* The words of PCG-XSH-RR 64/32 with the seed 0 and the rank as stream. */
uint32_t mpi_log_word(void)
{
    uint64_t old = state;
    state = old * 6364136223846793005u + increment;
    uint32_t x = (uint32_t)(((old >> 18) ^ old) >> 27), turn = (uint32_t)(old >> 59);
    return x >> turn | x << (-turn & 31);
}

void mpi_log_line(const char *line)
{
    fprintf(out, "%s\n", line);
    fflush(out);
}

static void words(const uint32_t *from, int count)
{
    for (int k = 0; k < count; k++) fprintf(out, " %u", from[k]);
    fprintf(out, "\n");
    fflush(out);
}

int MPI_Init(int *argc, char ***argv)
{
    char name[4096];
    int error = PMPI_Init(argc, argv);
    PMPI_Comm_rank(MPI_COMM_WORLD, &rank);
    snprintf(name, sizeof name, "%s.%d", getenv("LOG"), rank);
    out = fopen(name, "w");
    if (!out) abort();
    increment = (uint64_t)rank << 1 | 1;
    state = increment * 6364136223846793005u + increment;
    return error;
}

int MPI_Finalize(void)
{
    mpi_log_line("ended");
    return PMPI_Finalize();
}

int MPI_Send(const void *buf, int count, MPI_Datatype type, int to, int tag, MPI_Comm comm)
{
    fprintf(out, "send %d %d", to, tag);
    words(buf, count);
    /* a synchronous send waits until it is received: the stricter of the two modes */
    return getenv("WAITING") ? PMPI_Ssend(buf, count, type, to, tag, comm) : PMPI_Send(buf, count, type, to, tag, comm);
}

int MPI_Recv(void *buf, int count, MPI_Datatype type, int from, int tag, MPI_Comm comm, MPI_Status *status)
{
    int error = PMPI_Recv(buf, count, type, from, tag, comm, status);
    fprintf(out, "recv %d %d", from, tag);
    words(buf, count);
    return error;
}

int MPI_Barrier(MPI_Comm comm)
{
    mpi_log_line("enter barrier");
    int error = PMPI_Barrier(comm);
    mpi_log_line("leave barrier");
    return error;
}

int MPI_Bcast(void *buf, int count, MPI_Datatype type, int root, MPI_Comm comm)
{
    fprintf(out, "enter ?");
    words(buf, rank == root ? count : 0);
    int error = PMPI_Bcast(buf, count, type, root, comm);
    fprintf(out, "leave ?");
    words(buf, count);
    return error;
}

int MPI_Reduce(const void *from, void *to, int count, MPI_Datatype type, MPI_Op op, int root, MPI_Comm comm)
{
    fprintf(out, "enter ?");
    words(from, count);
    int error = PMPI_Reduce(from, to, count, type, op, root, comm);
    fprintf(out, "leave ?");
    words(to, rank == root ? count : 0);
    return error;
}

int MPI_Allreduce(const void *from, void *to, int count, MPI_Datatype type, MPI_Op op, MPI_Comm comm)
{
    fprintf(out, "enter ?");
    words(from, count);
    int error = PMPI_Allreduce(from, to, count, type, op, comm);
    fprintf(out, "leave ?");
    words(to, count);
    return error;
}
