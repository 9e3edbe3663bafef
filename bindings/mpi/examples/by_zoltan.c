#include "by_zoltan.h"
#include <stdio.h>
#include <zoltan.h>

static int count_objects(void *data, int *error)
{
    const cells *c = ((by_zoltan *)data)->app;
    uint32_t i;
    int count = 0;
    for (i = 0; i < c->n; i++) count += c->rows[i] != NULL;
    *error = ZOLTAN_OK;
    return count;
}

static void list_objects(void *data, int id_words, int local_words, ZOLTAN_ID_PTR ids, ZOLTAN_ID_PTR locals,
    int weight_words, float *weights, int *error)
{
    const cells *c = ((by_zoltan *)data)->app;
    uint32_t i, count = 0;
    (void)id_words, (void)local_words, (void)locals, (void)weight_words;
    for (i = 0; i < c->n; i++) {
        if (!c->rows[i]) continue;
        weights[count] = (float)c->loads[i];
        ids[count++] = i;
    }
    *error = ZOLTAN_OK;
}

static int dimensions(void *data, int *error)
{
    (void)data;
    *error = ZOLTAN_OK;
    return 1;
}

static void coordinates(void *data, int id_words, int local_words, int count, ZOLTAN_ID_PTR ids, ZOLTAN_ID_PTR locals,
    int dimension, double *at, int *error)
{
    int k;
    (void)data, (void)id_words, (void)local_words, (void)locals, (void)dimension;
    for (k = 0; k < count; k++) at[k] = ids[k];
    *error = ZOLTAN_OK;
}

static int size_of_object(void *data, int id_words, int local_words, ZOLTAN_ID_PTR id, ZOLTAN_ID_PTR local, int *error)
{
    (void)id_words, (void)local_words, (void)id, (void)local;
    *error = ZOLTAN_OK;
    return (int)cells_bytes(((by_zoltan *)data)->app);
}

static void pack_object(void *data, int id_words, int local_words, ZOLTAN_ID_PTR id, ZOLTAN_ID_PTR local, int to, int bytes,
    char *buffer, int *error)
{
    cells *c = ((by_zoltan *)data)->app;
    (void)id_words, (void)local_words, (void)local, (void)to;
    cells_pack(c, *id, buffer, (uint32_t)bytes);
    cells_drop(c, *id);
    *error = ZOLTAN_OK;
}

static void unpack_object(void *data, int id_words, ZOLTAN_ID_PTR id, int bytes, char *buffer, int *error)
{
    (void)id_words;
    *error = cells_unpack(((by_zoltan *)data)->app, *id, buffer, (uint32_t)bytes) ? ZOLTAN_MEMERR : ZOLTAN_OK;
}

static void expect_ok(int status, const char *what)
{
    if (status == ZOLTAN_OK || status == ZOLTAN_WARN) return;
    fprintf(stderr, "%s failed\n", what);
    MPI_Abort(MPI_COMM_WORLD, 1);
}

void by_zoltan_open(by_zoltan *z, cells *app, const char *method)
{
    static const char *const parameters[][2] = {
        {"DEBUG_LEVEL", "0"}, {"NUM_GID_ENTRIES", "1"}, {"NUM_LID_ENTRIES", "0"}, {"OBJ_WEIGHT_DIM", "1"},
        {"IMBALANCE_TOL", "1.0"}, {"RETURN_LISTS", "ALL"}, {"REMAP", "1"}};
    float version;
    size_t k;
    memset(z, 0, sizeof *z);
    expect_ok(Zoltan_Initialize(0, NULL, &version), "Zoltan");
    z->app = app;
    z->zoltan = Zoltan_Create(MPI_COMM_WORLD);
    for (k = 0; k < sizeof parameters / sizeof *parameters; k++)
        expect_ok(Zoltan_Set_Param(z->zoltan, parameters[k][0], parameters[k][1]), parameters[k][0]);
    expect_ok(Zoltan_Set_Param(z->zoltan, "LB_METHOD", method), method);
    Zoltan_Set_Num_Obj_Fn(z->zoltan, count_objects, z);
    Zoltan_Set_Obj_List_Fn(z->zoltan, list_objects, z);
    Zoltan_Set_Num_Geom_Fn(z->zoltan, dimensions, z);
    Zoltan_Set_Geom_Multi_Fn(z->zoltan, coordinates, z);
    Zoltan_Set_Obj_Size_Fn(z->zoltan, size_of_object, z);
    Zoltan_Set_Pack_Obj_Fn(z->zoltan, pack_object, z);
    Zoltan_Set_Unpack_Obj_Fn(z->zoltan, unpack_object, z);
}

void by_zoltan_close(by_zoltan *z)
{
    Zoltan_Destroy(&z->zoltan);
}

/* The lists of a partition. */
typedef struct {
    int changed, id_words, local_words, in_count, out_count;
    ZOLTAN_ID_PTR in_ids, in_locals, out_ids, out_locals;
    int *in_ranks, *in_parts, *out_ranks, *out_parts;
} lists;

/* The greatest load of a rank, and the elements moved, of what the partition says. Not counted as time of Zoltan's. */
static void measure(by_zoltan *z, const lists *l)
{
    uint64_t here[TEZGUMI_PES] = {0}, all[TEZGUMI_PES], out = (uint64_t)l->out_count;
    int rank, ranks, k;
    uint32_t i;
    MPI_Comm_rank(MPI_COMM_WORLD, &rank);
    MPI_Comm_size(MPI_COMM_WORLD, &ranks);
    for (i = 0; i < z->app->n; i++)
        if (z->app->rows[i]) here[rank] += z->app->loads[i];
    for (k = 0; k < l->out_count; k++) {
        here[rank] -= z->app->loads[l->out_ids[k]];
        here[l->out_ranks[k]] += z->app->loads[l->out_ids[k]];
    }
    MPI_Allreduce(here, all, ranks, MPI_UINT64_T, MPI_SUM, MPI_COMM_WORLD);
    MPI_Allreduce(&out, &z->elements_moved, 1, MPI_UINT64_T, MPI_SUM, MPI_COMM_WORLD);
    z->max_load = 0;
    for (k = 0; k < ranks; k++)
        if (all[k] > z->max_load) z->max_load = all[k];
}

void by_zoltan_rebalance(by_zoltan *z)
{
    lists l;
    double begin = MPI_Wtime();
    expect_ok(Zoltan_LB_Partition(z->zoltan, &l.changed, &l.id_words, &l.local_words, &l.in_count, &l.in_ids, &l.in_locals,
        &l.in_ranks, &l.in_parts, &l.out_count, &l.out_ids, &l.out_locals, &l.out_ranks, &l.out_parts), "partition");
    z->partition_seconds = MPI_Wtime() - begin;
    measure(z, &l);
    begin = MPI_Wtime();
    expect_ok(Zoltan_Migrate(z->zoltan, l.in_count, l.in_ids, l.in_locals, l.in_ranks, l.in_parts, l.out_count, l.out_ids,
        l.out_locals, l.out_ranks, l.out_parts), "migration");
    Zoltan_LB_Free_Part(&l.in_ids, &l.in_locals, &l.in_ranks, &l.in_parts);
    Zoltan_LB_Free_Part(&l.out_ids, &l.out_locals, &l.out_ranks, &l.out_parts);
    z->migrate_seconds = MPI_Wtime() - begin;
}
