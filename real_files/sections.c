/* sections NAME TYPE: the free sections of one memory type (1 SUPER to 6 OHDR, 0 for all) as the C library reads them, address and
   size. */
#include <hdf5.h>
#include <stdio.h>
#include <stdlib.h>

int main(int argc, char **argv) {
    if (argc != 3) return 2;
    hid_t file = H5Fopen(argv[1], H5F_ACC_RDONLY, H5P_DEFAULT);
    H5F_mem_t type = (H5F_mem_t)atoi(argv[2]);
    ssize_t count = H5Fget_free_sections(file, type, 0, NULL);
    if (count < 0) return 1;
    H5F_sect_info_t *all = malloc((count > 0 ? count : 1) * sizeof *all);
    if (count > 0) H5Fget_free_sections(file, type, count, all);
    for (ssize_t i = 0; i < count; i++) printf("%llu %llu\n", (unsigned long long)all[i].addr, (unsigned long long)all[i].size);
    H5Fclose(file);
    return 0;
}
