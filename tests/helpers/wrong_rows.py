"""Rows of clients that do wrong, for the tests of `./start` and of the job for continuous integration."""

# What a client does that closes its open by an id that isn't its owner's next, and is content with the answer.
WRONG_ID = """row a CLOSE by a wrong id
  rule The next id is 3.
  send compound 1
    SETCLIENTID 0x01020304 0x05060708 "c1" 0x40000000 "tcp" "127.0.0.1.3.232" 1
    SETCLIENTID_CONFIRM 1 1 u64:1
    PUTROOTFH
    OPEN 1 1 0 1 1 "A" 0 0 "a"
    OPEN_CONFIRM 1 1 1 1 2
    CLOSE 7 2 1 1 1
  want compound 1 NFS4ERR_BAD_SEQID
    SETCLIENTID NFS4_OK 1 1 u64:1
    SETCLIENTID_CONFIRM NFS4_OK
    PUTROOTFH NFS4_OK
    OPEN NFS4_OK 1 1 1 1 1 u64:0 u64:0 6 0 0
    OPEN_CONFIRM NFS4_OK 2 1 1 1
    CLOSE NFS4ERR_BAD_SEQID
"""
