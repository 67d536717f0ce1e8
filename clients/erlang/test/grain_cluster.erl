%% For tests and measures: etcd, NATS, agents and nodes of their own on this machine. Nodes are told what to do by their standard input, so that
%% they can be cut from one another and killed; each agent has doors of its own to etcd and NATS, which can be shut.
-module(grain_cluster).
-export([servers/0, stop_servers/1, node/3, node/4, vm/2, agent/4, join/1, kill/1, kill_vm/1, signal/2, signal_silo/2, leave_agent/1, stop/1, stop_vm/1]).
-export([cut/2, heal/2, shut/1, open/1, on/2, on/4, until/2, name/1, settled/2]).

-define(COOKIE, grain_cookie).

servers() ->
    [Client, Peers, Nats] = [free_port() || _ <- [1, 2, 3]],
    Folder = filename:join([root(), "run", "etcd-" ++ os:getpid() ++ integer_to_list(erlang:unique_integer([positive]))]),
    [Url, PeerUrl] = ["http://127.0.0.1:" ++ integer_to_list(Port) || Port <- [Client, Peers]],
    Etcd = spawn_program("etcd", ["--data-dir", Folder, "--listen-client-urls", Url, "--advertise-client-urls", Url, "--listen-peer-urls", PeerUrl,
                                  "--initial-advertise-peer-urls", PeerUrl, "--initial-cluster", "default=" ++ PeerUrl, "--log-level", "error",
                                  "--unsafe-no-fsync"]),
    NatsServer = spawn_program("nats-server", ["-a", "127.0.0.1", "-p", integer_to_list(Nats)]),
    [until(fun() -> listens(Port) end, 20000) || Port <- [Client, Nats]],
    #{etcd => Client, nats => Nats, programs => [Etcd, NatsServer], folder => Folder}.

listens(Port) ->
    case gen_tcp:connect({127, 0, 0, 1}, Port, []) of
        {ok, Socket} -> gen_tcp:close(Socket), true;
        {error, _} -> false
    end.

stop_servers(#{programs := Programs, folder := Folder}) ->
    [end_program(Program) || Program <- Programs],
    file:del_dir_r(Folder).

free_port() ->
    {ok, Socket} = gen_tcp:listen(0, [{ip, {127, 0, 0, 1}}]),
    {ok, Port} = inet:port(Socket),
    ok = gen_tcp:close(Socket),
    Port.

%% Programs are noted in run/pids, so that test/run ends those that are left.
spawn_program(Name, Words) ->
    Log = filename:join([root(), "run", filename:basename(Name) ++ ".log"]),
    Port = open_port({spawn_executable, "/bin/sh"}, [{args, ["-c", "exec \"$0\" \"$@\" >>" ++ Log ++ " 2>&1", Name | Words]}, exit_status]),
    {os_pid, Pid} = erlang:port_info(Port, os_pid),
    ok = file:write_file(filename:join([root(), "run", "pids"]), [integer_to_list(Pid), $\n], [append]),
    Pid.

end_program(Pid) ->
    os:cmd("kill -9 " ++ integer_to_list(Pid)),
    until(fun() -> not filelib:is_dir("/proc/" ++ integer_to_list(Pid)) end, 10000).

%% An agent with a node that runs the registry.
node(Name, Servers, Cluster) -> node(Name, Servers, Cluster, []).
node(Name, Servers, Cluster, Words) -> vm(Name, agent(Name, Servers, Cluster, Words)).

agent(Name, Servers = #{etcd := Etcd, nats := Nats}, Cluster, Words) ->
    create(Etcd, Cluster, Words),
    Door = maps:get(doors, Servers, open),
    Doors = #{etcd => grain_door:Door(Etcd), nats => grain_door:Door(Nats)},
    Socket = filename:join("/tmp", lists:concat(["grain-", os:getpid(), "-", Name, erlang:unique_integer([positive])])),
    A = #{servers => Servers, doors => Doors, socket => Socket, cluster => Cluster, port => free_port(), words => Words},
    A#{agent => start_agent(A)}.

%% The directory's first agent has it created; for the others it is there already.
create(Etcd, Cluster, Words) ->
    os:cmd(lists:flatten(lists:join(" ", ["timeout 20 \"$AGENT\" --create --ttl=5s --points=8", lists:concat(["--etcd=127.0.0.1:", Etcd]), "--cluster=" ++ Cluster
                                          | Words]))).

start_agent(#{doors := #{etcd := Etcd, nats := Nats}, socket := Socket, cluster := Cluster, port := Port, words := Words}) ->
    spawn_program(os:getenv("AGENT"), [lists:concat(["--endpoint=127.0.0.1:", Port]), "--socket=" ++ Socket, "--program=" ++ os:getenv("SILO_PROGRAM"),
                                       lists:concat(["--etcd=127.0.0.1:", grain_door:port(Etcd)]),
                                       lists:concat(["--nats=nats://127.0.0.1:", grain_door:port(Nats)]),
                                       "--cluster=" ++ Cluster, "--ttl=5s", "--lock-delay=300ms", "--points=8", "--log=info",
                                       "--silent-after=3s", "--transport-timeout=4s", "--leave-timeout=10s" | Words]).

%% A node at an agent; several may share one.
vm(Name, Agent = #{socket := Socket}) ->
    {ok, Peer, Node} = peer:start(#{name => Name, host => "localhost", connection => standard_io, wait_boot => 60000,
                                    env => [{"ERL_EPMD_ADDRESS", "127.0.0.1"}],
                                    args => ["-setcookie", atom_to_list(?COOKIE), "-kernel", "inet_dist_use_interface", "{127,0,0,1}",
                                             "-kernel", "logger_level", "error", "-kernel", "prevent_overlapping_partitions", "false",
                                             "-pa", filename:join(root(), "ebin"), filename:join([root(), "run", "test"])]}),
    Os = list_to_integer(peer:call(Peer, os, getpid, [])),
    ok = file:write_file(filename:join([root(), "run", "pids"]), [integer_to_list(Os), $\n], [append]),
    ok = peer:call(Peer, application, load, [grain_registry]),
    ok = peer:call(Peer, application, set_env, [grain_registry, socket, Socket, [{persistent, true}]]),
    Agent#{peer => Peer, node => Node, os => Os}.

join(N) ->
    {ok, _} = on(N, application, ensure_all_started, [grain_registry]),
    until(fun() -> is_member(N) end, 30000),
    N.

is_member(N = #{node := Node}) ->
    {_, Silos} = on(N, grain_registry, members, []),
    on(N, grain_members, silo, []) =/= none andalso lists:any(fun({_, active, Nodes}) -> lists:member(Node, Nodes); (_) -> false end, Silos).

%% All of these nodes know of so many silos, and are connected.
settled(Nodes, Count) ->
    until(fun() -> lists:all(fun(N) ->
                                     {_, Silos} = on(N, grain_registry, members, []),
                                     length([S || {S, active, [_ | _]} <- Silos]) =:= Count andalso length(on(N, erlang, nodes, [])) >= length(Nodes) - 1
                             end, Nodes) end, 60000).

on(#{peer := Peer}, Module, Function, Arguments) -> peer:call(Peer, Module, Function, Arguments, 300000).
on(#{peer := Peer}, Fun) -> peer:call(Peer, erlang, apply, [Fun, []], 60000).

name(#{node := Node}) -> Node.

%% The machine dies: node, agent and silo at once.
kill(N = #{agent := Agent, os := Os, peer := Peer}) ->
    unlink(Peer),
    signal(N, "STOP"),
    os:cmd(lists:concat(["kill -9 ", Os, " ", Agent, " $(ps -o pid= --ppid ", Agent, ")"])).

kill_vm(#{os := Os, peer := Peer}) ->
    unlink(Peer),
    os:cmd("kill -9 " ++ integer_to_list(Os)).

%% To the node, the agent and the silo, as where a machine stands still.
signal(N = #{os := Os, agent := Agent}, Signal) ->
    os:cmd(lists:concat(["kill -", Signal, " ", Os, " ", Agent])),
    signal_silo(N, Signal).

signal_silo(#{agent := Agent}, Signal) ->
    os:cmd(lists:concat(["for p in $(ps -o pid= --ppid ", Agent, "); do kill -", Signal, " $p; done"])).

leave_agent(#{agent := Agent}) -> os:cmd("kill " ++ integer_to_list(Agent)).

stop(N = #{agent := Agent, doors := Doors}) ->
    stop_vm(N),
    os:cmd(lists:concat(["kill -CONT ", Agent])),
    signal_silo(N, "KILL"),
    end_program(Agent),
    [grain_door:close(Door) || Door <- maps:values(Doors)].

stop_vm(#{peer := Peer, os := Os}) ->
    catch unlink(Peer),
    os:cmd(lists:concat(["kill -CONT ", Os, "; kill -9 ", Os])),
    catch peer:stop(Peer).

%% Two nodes that don't reach one another any more, and that do again.
cut(A = #{node := Na}, B = #{node := Nb}) ->
    on(A, erlang, set_cookie, [Nb, wrong_a]),
    on(B, erlang, set_cookie, [Na, wrong_b]),
    on(A, erlang, disconnect_node, [Nb]),
    on(B, erlang, disconnect_node, [Na]).

heal(A = #{node := Na}, B = #{node := Nb}) ->
    on(A, erlang, set_cookie, [Nb, ?COOKIE]),
    on(B, erlang, set_cookie, [Na, ?COOKIE]),
    on(A, net_kernel, connect_node, [Nb]).

%% The agent's doors.
shut(#{doors := Doors}) -> [grain_door:shut(Door) || Door <- maps:values(Doors)].
open(#{doors := Doors}) -> [grain_door:reopen(Door) || Door <- maps:values(Doors)].

%% Waits until something is so; how long that took, in milliseconds.
until(Holds, Within) -> until(Holds, Within, erlang:monotonic_time(millisecond)).
until(Holds, Within, Start) ->
    case Holds() of
        true -> erlang:monotonic_time(millisecond) - Start;
        _ ->
            erlang:monotonic_time(millisecond) - Start < Within orelse error({not_in_time, erlang:fun_info(Holds, name)}),
            timer:sleep(10),
            until(Holds, Within, Start)
    end.

root() -> filename:dirname(filename:dirname(filename:dirname(filename:absname(code:which(?MODULE))))).
