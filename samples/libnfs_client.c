/* A client with libnfs's raw layer, which sends exactly what it is given, and shows exactly what is answered:

       gcc -o /tmp/libnfs_client samples/libnfs_client.c -lnfs
       /tmp/libnfs_client 127.0.0.1 20490

   It calls NULL, then a COMPOUND of PUTROOTFH, LOOKUP "a" and GETATTR, then one of SETCLIENTID, and prints a line for
   each. The status is 0 if all three were answered. */
#include <arpa/inet.h>
#include <poll.h>
#include <stdio.h>
#include <stdlib.h>
#include <string.h>
#include <sys/socket.h>
#include <unistd.h>
#include <nfsc/libnfs.h>
#include <nfsc/libnfs-raw.h>
#include <nfsc/libnfs-raw-nfs4.h>

static int is_answered;

static void fail(const char *what, struct rpc_context *rpc)
{
    fprintf(stderr, "libnfs_client: %s: %s\n", what, rpc_get_error(rpc));
    exit(1);
}

/* Serves the connection until the callback of the call that was made has come. */
static void wait_for_answer(struct rpc_context *rpc, const char *what, int made)
{
    if (made != 0)
        fail(what, rpc);
    for (is_answered = 0; !is_answered;) {
        struct pollfd waiting = {.fd = rpc_get_fd(rpc), .events = rpc_which_events(rpc)};
        if (poll(&waiting, 1, 10000) < 1 || rpc_service(rpc, waiting.revents) < 0)
            fail(what, rpc);
    }
}

static void answered(struct rpc_context *rpc, int status, void *data, void *what)
{
    if (status != RPC_STATUS_SUCCESS)
        fail(what, rpc);
    is_answered = 1;
}

static void null_answered(struct rpc_context *rpc, int status, void *data, void *what)
{
    answered(rpc, status, data, what);
    printf("NULL: answered\n");
}

/* The status of the COMPOUND and of each result; and what a GETATTR or a SETCLIENTID that is OK brings. */
static void compound_answered(struct rpc_context *rpc, int status, void *data, void *what)
{
    COMPOUND4res *reply = data;
    answered(rpc, status, data, what);
    printf("COMPOUND: status %d:", reply->status);
    for (u_int at = 0; at < reply->resarray.resarray_len; at++) {
        nfs_resop4 *result = &reply->resarray.resarray_val[at];
        /* Each result begins with its status. */
        printf(" operation %d status %d", result->resop, result->nfs_resop4_u.opputrootfh.status);
        if (result->resop == OP_GETATTR && result->nfs_resop4_u.opgetattr.status == NFS4_OK) {
            /* The values in the order of their numbers: a type of four bytes, a size of eight. */
            attrlist4 *values = &result->nfs_resop4_u.opgetattr.GETATTR4res_u.resok4.obj_attributes.attr_vals;
            uint32_t words[3];
            if (values->attrlist4_len != sizeof words)
                fail("GETATTR has other values", rpc);
            memcpy(words, values->attrlist4_val, sizeof words);
            printf(" (type %u, size %u)", ntohl(words[0]), ntohl(words[2]));
        }
        if (result->resop == OP_SETCLIENTID && result->nfs_resop4_u.opsetclientid.status == NFS4_OK)
            printf(" (clientid 0x%016llx)", (unsigned long long)
                   result->nfs_resop4_u.opsetclientid.SETCLIENTID4res_u.resok4.clientid);
        printf("%s", at + 1 < reply->resarray.resarray_len ? "," : "\n");
    }
}

/* Says that no more comes, and waits until the server has closed its side too: rpc_disconnect alone would reset the
   connection, which a server may take for a fault. */
static void end(struct rpc_context *rpc)
{
    struct pollfd waiting = {.fd = rpc_get_fd(rpc), .events = POLLIN};
    char byte;
    if (shutdown(waiting.fd, SHUT_WR) < 0 || poll(&waiting, 1, 10000) < 1 || read(waiting.fd, &byte, 1) != 0)
        fail("the server's end", rpc);
    rpc_disconnect(rpc, "done");
    rpc_destroy_context(rpc);
}

static void call_compound(struct rpc_context *rpc, char *what, u_int count, nfs_argop4 *operations)
{
    COMPOUND4args call = {.argarray = {count, operations}};
    wait_for_answer(rpc, what, rpc_nfs4_compound_async(rpc, compound_answered, &call, what));
}

int main(int count, char **words)
{
    if (count != 3) {
        fprintf(stderr, "usage: libnfs_client HOST PORT\n");
        return 2;
    }
    struct rpc_context *rpc = rpc_init_context();
    /* libnfs calls NULL here by itself, once the connection is there. */
    wait_for_answer(rpc, "connect", rpc_connect_port_async(rpc, words[1], atoi(words[2]), NFS4_PROGRAM, NFS_V4,
                                                           answered, "connect"));
    wait_for_answer(rpc, "NULL", rpc_nfs4_null_async(rpc, null_answered, "NULL"));

    uint32_t type_and_size = 1 << FATTR4_TYPE | 1 << FATTR4_SIZE;
    nfs_argop4 look[3] = {{.argop = OP_PUTROOTFH}, {.argop = OP_LOOKUP}, {.argop = OP_GETATTR}};
    look[1].nfs_argop4_u.oplookup.objname = (utf8string){1, "a"};
    look[2].nfs_argop4_u.opgetattr.attr_request = (bitmap4){1, &type_and_size};
    call_compound(rpc, "COMPOUND of GETATTR", 3, look);

    nfs_argop4 introduce = {.argop = OP_SETCLIENTID};
    SETCLIENTID4args *client = &introduce.nfs_argop4_u.opsetclientid;
    memcpy(client->client.verifier, "verifier", 8);
    client->client.id.id_len = 6;
    client->client.id.id_val = "libnfs";
    client->callback.cb_program = 0x40000000;
    client->callback.cb_location = (clientaddr4){"tcp", "127.0.0.1.3.232"};
    client->callback_ident = 1;
    call_compound(rpc, "COMPOUND of SETCLIENTID", 1, &introduce);

    end(rpc);
    return 0;
}
