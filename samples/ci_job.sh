#!/bin/sh
# ci_job.sh JOURNAL COMMAND..: a job that tests a client three times against one server. In COMMAND {host} and {port}
# are replaced by the server's address. The job ends at the first client that fails, and all three together have a
# minute.
#
# The status is the client's. If that is 0, the status is 1 if the verdict on the client has an error, if no call on the
# state came, or if the server was at fault. The file JOURNAL has the journal afterwards.
set -u
top=$(cd "$(dirname "$0")/.." && pwd)
journal=$1
shift
"$top/start" --journal "$journal" --seconds 60 -- sh -c 'for round in 1 2 3; do "$@" || exit; done' client "$@" || exit
[ -n "$("$top/tools/show_journal" "$journal")" ] || { echo "ci_job.sh: no call on the state came" >&2; exit 1; }
