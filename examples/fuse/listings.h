/* The calls that read directories, by pages of the library's. */
#ifndef LISTINGS_H
#define LISTINGS_H
#include <fuse_lowlevel.h>

void fs_opendir(fuse_req_t request, fuse_ino_t number, struct fuse_file_info *file);
void fs_readdir(fuse_req_t request, fuse_ino_t number, size_t size, off_t from, struct fuse_file_info *file);
void fs_readdirplus(fuse_req_t request, fuse_ino_t number, size_t size, off_t from, struct fuse_file_info *file);
void fs_releasedir(fuse_req_t request, fuse_ino_t number, struct fuse_file_info *file);

#endif
