/* make NAME PAGE COUNT STEP OFFSET: an HDF5 file that persists its free space. COUNT datasets of 600 bytes and up are made, in seven
   sizes STEP bytes apart, and every second one is deleted. PAGE is the page size in bytes for the strategy Page, 0 for FSM_AGGR. OFFSET
   is the offset size; the length size is 8. */
#include <hdf5.h>
#include <stdio.h>
#include <stdlib.h>
#include <sys/time.h>

/* The C library records the time of this clock in its objects. It stands still, so that a file comes out the same each time. */
int gettimeofday(struct timeval *now, void *zone) {
    (void)zone;
    now->tv_sec = 0;
    now->tv_usec = 0;
    return 0;
}

int main(int argc, char **argv) {
    if (argc != 6) return 2;
    const char *name = argv[1];
    int page = atoi(argv[2]), count = atoi(argv[3]), step = atoi(argv[4]), offset = atoi(argv[5]);
    hid_t fcpl = H5Pcreate(H5P_FILE_CREATE);
    H5Pset_sizes(fcpl, offset, 8);
    H5Pset_file_space_strategy(fcpl, page ? H5F_FSPACE_STRATEGY_PAGE : H5F_FSPACE_STRATEGY_FSM_AGGR, 1, 1);
    if (page) H5Pset_file_space_page_size(fcpl, page);
    hid_t fapl = H5Pcreate(H5P_FILE_ACCESS);
    H5Pset_libver_bounds(fapl, H5F_LIBVER_LATEST, H5F_LIBVER_LATEST);
    hid_t file = H5Fcreate(name, H5F_ACC_TRUNC, fcpl, fapl);
    hid_t dcpl = H5Pcreate(H5P_DATASET_CREATE);
    H5Pset_layout(dcpl, H5D_CONTIGUOUS);
    H5Pset_alloc_time(dcpl, H5D_ALLOC_TIME_EARLY);
    char dataset[32];
    for (int i = 0; i < count; i++) {
        hsize_t bytes = 600 + (hsize_t)i % 7 * step;
        hid_t space = H5Screate_simple(1, &bytes, NULL);
        snprintf(dataset, sizeof dataset, "d%05d", i);
        H5Dclose(H5Dcreate2(file, dataset, H5T_STD_U8LE, space, H5P_DEFAULT, dcpl, H5P_DEFAULT));
        H5Sclose(space);
    }
    for (int i = 0; i < count; i += 2) {
        snprintf(dataset, sizeof dataset, "d%05d", i);
        H5Ldelete(file, dataset, H5P_DEFAULT);
    }
    H5Fclose(file);
    return 0;
}
