"""The values of the enumerations of RFC 7531 that operations have as arguments and results."""

# What an open has access to, or denies; and what a delegation is for.
NONE = 0
READ = 1
WRITE = 2
BOTH = 3

# open_delegation_type4
OPEN_DELEGATE_NONE, OPEN_DELEGATE_READ, OPEN_DELEGATE_WRITE = 0, 1, 2

# nfs_lock_type4
READ_LT = 1
WRITE_LT = 2
READW_LT = 3
WRITEW_LT = 4

# opentype4, createmode4, and a flag of OPEN's result
OPEN4_NOCREATE, OPEN4_CREATE = 0, 1
UNCHECKED4, GUARDED4, EXCLUSIVE4 = 0, 1, 2
OPEN4_RESULT_CONFIRM = 2

# open_claim_type4
CLAIM_NULL = 0
CLAIM_PREVIOUS = 1
CLAIM_DELEGATE_CUR = 2
CLAIM_DELEGATE_PREV = 3

# stable_how4
UNSTABLE4, DATA_SYNC4, FILE_SYNC4 = 0, 1, 2

# nfs_ftype4
NF4REG, NF4DIR = 1, 2
NF4BLK, NF4CHR, NF4LNK = 3, 4, 5
