# shellcheck shell=bash
# How `check` sets up what an engine needs, as machines of their own on this one, in the folder of the run.

: "${work:?}"

# is_installed ENGINE
is_installed() {
    case $1 in
        xargs) ;;
        parallel) has parallel ;;
        ssh) has ssh sshd ssh-keygen ;;
        parallel_ssh) has parallel ssh sshd ssh-keygen ;;
        slurm) has munged slurmctld slurmd sbatch ;;
        dask)
            for PYTHON in python3 /usr/bin/python3; do
                "$PYTHON" -c 'import distributed' 2>/dev/null && export PYTHON && return
            done
            echo "skipped: dask, since no Python here has it"
            return 1
            ;;
    esac
}

set_up_xargs() { :; }
set_up_parallel() { :; }
set_up_dask() { :; }
set_up_parallel_ssh() { set_up_ssh "$@"; }

# set_up_ssh: the machines alpha and beta, each a server of its own. One that is there is left.
set_up_ssh() {
    local name port
    [ -d ssh ] || new_keys
    for name in alpha beta; do
        [ ! -e "$name.pid" ] || continue
        port=$(free_port)
        printf '%s\n' "Port $port" 'ListenAddress 127.0.0.1' "HostKey $work/ssh/host" \
            "AuthorizedKeysFile $work/ssh/user.pub" "PidFile $work/$name.pid" 'StrictModes no' 'UsePAM no' 'PasswordAuthentication no' "SetEnv WORKER=$name" >"ssh/$name.server"
        printf '%s\n' "Host $name" ' HostName 127.0.0.1' " Port $port" " IdentityFile $work/ssh/user" ' IdentitiesOnly yes' \
            ' StrictHostKeyChecking no' " UserKnownHostsFile $work/ssh/known" ' LogLevel ERROR' >"ssh/$name.client"
        if ! "$(command -v sshd)" -f "$work/ssh/$name.server" -E "$work/ssh/$name.log" || ! until_listens "$port"; then
            wrong "the server of $name doesn't start"
            return 1
        fi
    done
    cat ssh/*.client >ssh/client
    export VYRD_SSH="ssh -F $work/ssh/client -o BatchMode=yes -o ConnectTimeout=10"
}

new_keys() {
    mkdir -p ssh
    [ -d /run/sshd ] || mkdir -p /run/sshd 2>/dev/null
    for key in host user; do ssh-keygen -q -t ed25519 -N '' -f "ssh/$key"; done
}

# set_up_slurm: a controller and the nodes node1 and node2. A node that is there is left.
set_up_slurm() {
    local node
    [ -d slurm ] || new_cluster || { wrong "the controller doesn't start"; return 1; }
    for node in node1 node2; do
        [ -e "slurmd.$node.pid" ] || slurmd -N "$node" || { wrong "$node doesn't start"; return 1; }
    done
    for ((try = 0; try < 200; try++)); do
        [ "$(sinfo --noheader --states=idle --format=%D 2>/dev/null)" != 2 ] || return 0
        sleep 0.1
    done
    wrong 'the nodes are not idle'
    return 1
}

new_cluster() {
    local host port
    host=$(uname -n) port=$(free_port)
    mkdir -p slurm/state slurm/spool
    mkdir -m 700 munge
    head -c 1024 /dev/urandom >munge/key
    chmod 600 munge/key
    export SLURM_CONF=$work/slurm/slurm.conf
    cat >"$SLURM_CONF" <<CONF
ClusterName=here
SlurmctldHost=$host(127.0.0.1)
SlurmctldPort=$port
SlurmctldParameters=idle_on_node_suspend
CommunicationParameters=NoInAddrAny,NoCtldInAddrAny
AuthInfo=socket=$work/munge/socket,cred_expire=5
SlurmUser=$(id -un)
SlurmdUser=$(id -un)
StateSaveLocation=$work/slurm/state
SlurmdSpoolDir=$work/slurm/spool/%n
SlurmctldPidFile=$work/slurmctld.pid
SlurmdPidFile=$work/slurmd.%n.pid
SlurmctldLogFile=$work/slurm/log
SlurmdLogFile=$work/slurm/log.%n
ProctrackType=proctrack/linuxproc
TaskPlugin=task/none
SelectType=select/cons_tres
SelectTypeParameters=CR_CPU
SchedulerParameters=sched_interval=2,batch_sched_delay=0
ReturnToService=2
SlurmdTimeout=4
MessageTimeout=3
NodeName=node1 NodeHostname=$host NodeAddr=127.0.0.1 Port=$(free_port) CPUs=1
NodeName=node2 NodeHostname=$host NodeAddr=127.0.0.1 Port=$(free_port) CPUs=1
PartitionName=all Nodes=node[1-2] Default=YES State=UP
CONF
    munged --force --key-file="$work/munge/key" --socket="$work/munge/socket" --pid-file="$work/munged.pid" \
        --log-file="$work/munge/log" --seed-file="$work/munge/seed" 2>munge/said || return
    slurmctld -c && until_listens "$port"
}
