/* Numbers of NFS version 3, MOUNT version 3 and NLM version 4 (RFC 1813) over ONC RPC with record marks (RFC 5531). */
#ifndef NFS_H
#define NFS_H

#include <stdint.h>

#define LAST_FRAGMENT 0x80000000u

enum { RPC_CALL = 0, RPC_REPLY = 1, RPC_VERSION = 2, AUTH_NONE = 0, AUTH_SYS = 1 };

enum program { PROGRAM_NFS = 100003, PROGRAM_MOUNT = 100005, PROGRAM_NLM = 100021 };

enum { PROGRAM_VERSION = 3, NLM_VERSION = 4 };

enum { MOUNT_MNT = 1 };

enum { NLM_LOCK = 2, NLM_UNLOCK = 4 };

enum procedure {
    NFS_NULL = 0,
    NFS_GETATTR = 1,
    NFS_SETATTR = 2,
    NFS_LOOKUP = 3,
    NFS_ACCESS = 4,
    NFS_READ = 6,
    NFS_WRITE = 7,
    NFS_CREATE = 8,
    NFS_MKDIR = 9,
    NFS_REMOVE = 12,
    NFS_RENAME = 14,
    NFS_READDIRPLUS = 17
};

enum { REGULAR_FILE = 1, UNCHECKED = 0, GUARDED = 1, UNSTABLE = 0, FILE_SYNC = 2 };

/* Lengths in bytes. */
enum {
    MARK = 4,
    ATTRIBUTES = 84,      /* fattr3 */
    SHORT_ATTRIBUTES = 24, /* wcc_attr, those of before a change */
    VERIFIER = 8,         /* of cookies and of writes */
    MOST_OF_HANDLE = 64
};

#endif
